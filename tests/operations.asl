// Each operation of ACPI 6.5 that iasl compiles, for scripts/check_code. It is compiled without optimisation, and never run.
DefinitionBlock ("", "SSDT", 2, "ZUGZW", "ALLOPS", 1)
{
    External (EXTM, MethodObj, IntObj, {IntObj, IntObj})
    External (EXTI, IntObj)
    External (\_SB.EXTD, DeviceObj)
    Alias (INT0, ALI0)
    Name (INT0, 0x1234567812345678)
    Name (STR0, "a \"quoted\" \\ text")
    Name (BUF0, Buffer (0x20) {1, 2, 3, 0x22, 0x2f, 0x2a})
    Name (PKG0, Package (3) {INT0, "x", Package (2) {1, 0xffff}})
    Mutex (MTX0, 5)
    Event (EVT0)
    OperationRegion (REG0, SystemMemory, 0x10000, 0x100)
    Field (REG0, DWordAcc, Lock, Preserve) { FLD0, 8, Offset (4), AccessAs (ByteAcc, AttribByte), FLD1, 16 }
    OperationRegion (GPR0, GeneralPurposeIO, 0, 2)
    Field (GPR0, ByteAcc, NoLock, Preserve) { Connection (GpioIo (Exclusive, PullUp, 0, 0, IoRestrictionNone, "\\_SB.GPI0", 0) {1}), PIN0, 1, PIN1, 1 }
    IndexField (FLD0, FLD1, ByteAcc, NoLock, Preserve) { IDX0, 8 }
    BankField (REG0, FLD0, 1, ByteAcc, NoLock, Preserve) { BNK0, 8 }
    DataTableRegion (DTR0, "OEM1", "ab", "cd")
    Device (\_SB.DEV0) {
        Name (_HID, "ABCD0001")
        Method (FUN2, 2, Serialized, 3) { Return (Add (Arg0, Arg1)) }
        Method (FUN0, 0) { Return (Timer) }
        Method (FUN7, 7) { Return (Arg6) }
    }
    PowerResource (PWR0, 1, 2) { Method (_STA) { Return (1) } Method (_ON) {} Method (_OFF) {} }
    ThermalZone (TZ00) { Method (_TMP) { Return (0xBB8) } }
    Processor (CPU0, 1, 0x510, 6) {}
    Method (ALL0, 7, Serialized) {
        Store (1, Local0) Store (1, Local3)
        CreateBitField (BUF0, 3, BIT0)
        CreateByteField (BUF0, 1, BYT0)
        CreateWordField (BUF0, 2, WRD0)
        CreateDWordField (BUF0, 4, DWR0)
        CreateQWordField (BUF0, 8, QWR0)
        CreateField (BUF0, Add (Local0, 1), 5, FLX0)
        Store (Ones, Local0) Store (1, Local3)
        Store (Add (Arg0, Multiply (Arg1, 3)), Local1)
        Add (Local0, 1, Local1)
        Subtract (Local0, 0x10, Local1)
        Multiply (Local0, 0x100, Local1)
        Divide (Local0, 0x10000, Local1, Local2)
        Store (Divide (Local0, 3), Local1)
        Mod (Local0, 0x100000000, Local2)
        And (Local0, 1, Local1) NAnd (Local0, 1, Local1) Or (Local0, 1, Local1) NOr (Local0, 1, Local1)
        XOr (Local0, 1, Local1) Not (Local0, Local1)
        ShiftLeft (Local0, 2, Local1) ShiftRight (Local0, 2, Local1)
        Increment (Local0) Decrement (Local0)
        FindSetLeftBit (Local0, Local1) FindSetRightBit (Local0, Local1)
        FromBCD (Local0, Local1) ToBCD (Local0, Local1)
        Concatenate (STR0, "x", Local3)
        ConcatenateResTemplate (BUF0, BUF0, Local3)
        ToBuffer (STR0, Local3) ToDecimalString (BUF0, Local3) ToHexString (BUF0, Local3) ToInteger (STR0, Local3)
        ToString (BUF0, 3, Local3) ToString (BUF0, Ones, Local3)
        Mid (STR0, 1, 2, Local3)
        CopyObject (Local3, Local4)
        Store (Index (PKG0, 1), Local5)
        Store (Index (PKG0, 0, Local5), Local6)
        Store (DerefOf (Index (PKG0, 1)), Local5)
        Store (RefOf (INT0), Local5)
        If (CondRefOf (\_SB.EXTD, Local5)) { Notify (\_SB.EXTD, 0x80) }
        Store (SizeOf (BUF0), Local5)
        Store (ObjectType (INT0), Local5)
        Store (Match (PKG0, MEQ, 1, MLT, Local0, 0), Local5)
        Store (Match (PKG0, MTR, 0, MGE, 3, 1), Local5)
        If (LAnd (LEqual (Local0, 1), LOr (LGreater (Local1, 2), LLess (Local2, 3)))) { Noop }
        ElseIf (LNot (Local3)) { Store (1, Debug) }
        Else { Store ("else", Debug) }
        If (LNotEqual (Local0, 1)) { } 
        If (LLessEqual (Local0, 1)) { Store (Local0, Local1) }
        If (LGreaterEqual (Local0, 1)) { BreakPoint }
        While (LLess (Local0, 10)) { Increment (Local0) If (Local1) { Break } Continue }
        Acquire (MTX0, 0xffff) Release (MTX0)
        Signal (EVT0) Store (Wait (EVT0, 0x64), Local1) Reset (EVT0)
        Sleep (10) Stall (5)
        Fatal (1, 2, Local0)
        Store (Timer, Local0)
        Store (Revision, Local0)
        Store (LoadTable ("OEM1", "ab", "cd", "\\", "", 0), Local6)
        Load (BUF0, Local6)
        Store (EXTM (Local0, EXTI), Local7)
        EXTM (1, EXTM (2, 3))
        \_SB.DEV0.FUN2 (Local0, \_SB.DEV0.FUN0 ())
        \_SB.DEV0.FUN7 (1, 2, 3, 4, 5, 6, \_SB.DEV0.FUN2 (1, 2))
        Store (Buffer (Add (Local0, 1)) {1, 2}, Local0)
        Store (Package (Local1) {1, "y"}, Local0)
        Return (Local0)
    }
}
