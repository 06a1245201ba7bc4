_acpi_dump() {
    local i cur prev opts cmds
    COMPREPLY=()
    cur="${COMP_WORDS[COMP_CWORD]}"
    prev="${COMP_WORDS[COMP_CWORD-1]}"
    cmd=""
    opts=""

    for i in ${COMP_WORDS[@]}
    do
        case "${cmd},${i}" in
            ",$1")
                cmd="acpi_dump"
                ;;
            *)
                ;;
        esac
    done

    case "${cmd}" in
        acpi_dump)
            opts="-c -j -h -V -t -o --at --start --code --get --text --force --summary --find --fleet --alike --compare --exit-code --ignore --json --strict --max-bytes --help --version --as --table --hex --format --sort --color --check --rules --extract --html --baseline --ignore-rules --base [INPUT]..."
            if [[ ${cur} == -* || ${COMP_CWORD} -eq 1 ]] ; then
                COMPREPLY=( $(compgen -W "${opts}" -- "${cur}") )
                return 0
            fi
            case "${prev}" in
                --at)
                    COMPREPLY=($(compgen -f "${cur}"))
                    return 0
                    ;;
                --start)
                    COMPREPLY=($(compgen -f "${cur}"))
                    return 0
                    ;;
                --get)
                    COMPREPLY=($(compgen -f "${cur}"))
                    return 0
                    ;;
                --ignore)
                    COMPREPLY=($(compgen -f "${cur}"))
                    return 0
                    ;;
                --max-bytes)
                    COMPREPLY=($(compgen -f "${cur}"))
                    return 0
                    ;;
                --as)
                    COMPREPLY=($(compgen -W "image memory text table" -- "${cur}"))
                    return 0
                    ;;
                --table)
                    COMPREPLY=($(compgen -W "all AEST AGDI APIC APMT ASF! ASPT BDAT BERT BGRT BOOT CCEL CEDT CPEP CRAT CSRT DBG2 DBGP DMAR DRTM DSDT DTPR ECDT EINJ ERDT ERST FACP FACS FPDT GTDT HEST HMAT HPET IBFT IORT IOVT IVRS KEYP LPIT MCFG MCHI MISC MPAM MPST MRRM MSCT MSDM MTMR NBFT NFIT NHLT PCCT PDTT PHAT PMTT PPTT PRMT RAS2 RASF RGRT RHCT RIMT RSDP RSDT SBST SDEI SDEV SLIC SLIT SPCR SPMI SRAT SSDT STAO SVKL SWFT TCPA TDEL TPM2 UEFI VFCT VIOT VRTC WAET WDAT WDDT WDRT WPBT WSMT XENV XSDT" -- "${cur}"))
                    return 0
                    ;;
                -t)
                    COMPREPLY=($(compgen -W "all AEST AGDI APIC APMT ASF! ASPT BDAT BERT BGRT BOOT CCEL CEDT CPEP CRAT CSRT DBG2 DBGP DMAR DRTM DSDT DTPR ECDT EINJ ERDT ERST FACP FACS FPDT GTDT HEST HMAT HPET IBFT IORT IOVT IVRS KEYP LPIT MCFG MCHI MISC MPAM MPST MRRM MSCT MSDM MTMR NBFT NFIT NHLT PCCT PDTT PHAT PMTT PPTT PRMT RAS2 RASF RGRT RHCT RIMT RSDP RSDT SBST SDEI SDEV SLIC SLIT SPCR SPMI SRAT SSDT STAO SVKL SWFT TCPA TDEL TPM2 UEFI VFCT VIOT VRTC WAET WDAT WDDT WDRT WPBT WSMT XENV XSDT" -- "${cur}"))
                    return 0
                    ;;
                --hex)
                    COMPREPLY=($(compgen -W "all AEST AGDI APIC APMT ASF! ASPT BDAT BERT BGRT BOOT CCEL CEDT CPEP CRAT CSRT DBG2 DBGP DMAR DRTM DSDT DTPR ECDT EINJ ERDT ERST FACP FACS FPDT GTDT HEST HMAT HPET IBFT IORT IOVT IVRS KEYP LPIT MCFG MCHI MISC MPAM MPST MRRM MSCT MSDM MTMR NBFT NFIT NHLT PCCT PDTT PHAT PMTT PPTT PRMT RAS2 RASF RGRT RHCT RIMT RSDP RSDT SBST SDEI SDEV SLIC SLIT SPCR SPMI SRAT SSDT STAO SVKL SWFT TCPA TDEL TPM2 UEFI VFCT VIOT VRTC WAET WDAT WDDT WDRT WPBT WSMT XENV XSDT" -- "${cur}"))
                    return 0
                    ;;
                --format)
                    COMPREPLY=($(compgen -W "sarif junit" -- "${cur}"))
                    return 0
                    ;;
                --sort)
                    COMPREPLY=($(compgen -W "table rule severity" -- "${cur}"))
                    return 0
                    ;;
                --color)
                    COMPREPLY=($(compgen -W "auto always never" -- "${cur}"))
                    return 0
                    ;;
                --check)
                    COMPREPLY=($(compgen -W "error warning note" -- "${cur}"))
                    return 0
                    ;;
                --rules)
                    COMPREPLY=($(compgen -W "root-null-pointer root-listed-twice root-lists-differ root-rsdt-in-use root-second-table root-nothing-there root-no-fadt root-no-madt root-overlap header-sum header-refused header-bytes-after table-malformed header-short header-length header-revision header-letters header-reserved field-code fadt-dsdt-differs fadt-facs-differs fadt-no-dsdt fadt-no-facs fadt-block-differs fadt-no-block fadt-space fadt-access-size fadt-arm-fixed fadt-no-psci fadt-block-width fadt-event-length fadt-control-length fadt-gpe-length fadt-timer-length fadt-sci-interrupt fadt-smi-command fadt-fixed-blocks fadt-reset-register fadt-profile fadt-reserved-flags facs-alignment facs-length facs-version madt-reserved-type madt-duplicate-apic-id madt-duplicate-uid madt-duplicate-mpidr madt-x2apic-below-255 madt-no-processor madt-processor-flags madt-no-io-apic madt-duplicate-io-apic madt-duplicate-gsi-base madt-gsi-0-nowhere madt-override-bus madt-override-source madt-override-twice madt-override-nowhere madt-inti-flags madt-lint madt-nmi-uid madt-no-gicd madt-second-gicd srat-no-domain srat-unknown-processor srat-overlap srat-empty srat-past-end srat-repeated srat-reserved-type slit-no-srat slit-diagonal slit-reserved-distance slit-asymmetric slit-too-few mcfg-buses mcfg-unaligned mcfg-past-end mcfg-shared-bus mcfg-overlap hpet-space hpet-zero hpet-unaligned bgrt-version bgrt-type bgrt-zero dbg2-console rmrr-pages rmrr-limit drhd-all drhd-last scope-path ivhd-range ivhd-end iort-mapping-end iort-mapping-overlap pptt-offset pptt-cycle pptt-processor-nowhere pcct-length tpm2-log aml-twice aml-resource-end aml-resource-length aml-resource-sum aml-resource-type aml-eisa-id aml-text-id aml-no-s5 aml-sleep-type aml-mcfg-reserved aml-windows aml-link-nowhere aml-status aml-uid-twice aml-no-processor aml-gpe-nowhere aml-gpe-twice bert-length bert-region cedt-bridge-twice cedt-registers cedt-target-nowhere cedt-window-base cedt-window-empty cedt-window-size dmar-base dmar-base-twice dmar-width ecdt-address ecdt-id ecdt-space ecdt-width einj-action einj-instruction einj-space erst-action erst-instruction erst-space gtdt-interrupt hest-enabled hest-notification hest-notification-length hest-records hest-related-nowhere hest-source-twice hest-status-address hmat-base-unit hmat-cache-size hmat-data-type hmat-initiators hmat-targets iort-base iort-identifier iort-its-count iort-node iort-nodes iort-range iort-range-empty iort-reference nfit-control-nowhere nfit-control-twice nfit-handle-nowhere nfit-index nfit-interleave-nowhere nfit-line-size nfit-range-nowhere nfit-range-twice rhct-frequency rhct-isa rhct-mmu rhct-reference rhct-uid-twice spcr-space spcr-zero viot-base viot-endpoint viot-nodes viot-output wdat-count wdat-header wdat-period wdat-space" -- "${cur}"))
                    return 0
                    ;;
                --extract)
                    COMPREPLY=($(compgen -f "${cur}"))
                    return 0
                    ;;
                -o)
                    COMPREPLY=($(compgen -f "${cur}"))
                    return 0
                    ;;
                --html)
                    COMPREPLY=($(compgen -f "${cur}"))
                    return 0
                    ;;
                --baseline)
                    COMPREPLY=($(compgen -f "${cur}"))
                    return 0
                    ;;
                --ignore-rules)
                    COMPREPLY=($(compgen -f "${cur}"))
                    return 0
                    ;;
                --base)
                    COMPREPLY=($(compgen -f "${cur}"))
                    return 0
                    ;;
                *)
                    COMPREPLY=()
                    ;;
            esac
            COMPREPLY=( $(compgen -W "${opts}" -- "${cur}") )
            return 0
            ;;
    esac
}

complete -F _acpi_dump -o bashdefault -o default acpi_dump
