
using namespace System.Management.Automation
using namespace System.Management.Automation.Language

Register-ArgumentCompleter -Native -CommandName 'acpi_dump' -ScriptBlock {
    param($wordToComplete, $commandAst, $cursorPosition)

    $commandElements = $commandAst.CommandElements
    $command = @(
        'acpi_dump'
        for ($i = 1; $i -lt $commandElements.Count; $i++) {
            $element = $commandElements[$i]
            if ($element -isnot [StringConstantExpressionAst] -or
                $element.StringConstantType -ne [StringConstantType]::BareWord -or
                $element.Value.StartsWith('-') -or
                $element.Value -eq $wordToComplete) {
                break
        }
        $element.Value
    }) -join ';'

    $completions = @(switch ($command) {
        'acpi_dump' {
            [CompletionResult]::new('--at', 'at', [CompletionResultType]::ParameterName, 'The address of raw memory''s first byte')
            [CompletionResult]::new('--start', 'start', [CompletionResultType]::ParameterName, 'The way to the root table: rsdt:REVISION:ADDRESS, rsdp:ADDRESS or bios')
            [CompletionResult]::new('--get', 'get', [CompletionResultType]::ParameterName, 'One value a line, for scripts: SIG.FIELD, SIG.ENTRY.FIELD or SIG:OBJECT')
            [CompletionResult]::new('--ignore', 'ignore', [CompletionResultType]::ParameterName, 'Fields that are left out of what differs')
            [CompletionResult]::new('--max-bytes', 'max-bytes', [CompletionResultType]::ParameterName, 'How many bytes an input has at most: 1073741824 if it isn''t said')
            [CompletionResult]::new('--as', 'as', [CompletionResultType]::ParameterName, 'What the input is: image, memory, text or table')
            [CompletionResult]::new('-t', 't', [CompletionResultType]::ParameterName, 'The fields of the tables of a signature, or of all')
            [CompletionResult]::new('--table', 'table', [CompletionResultType]::ParameterName, 'The fields of the tables of a signature, or of all')
            [CompletionResult]::new('--hex', 'hex', [CompletionResultType]::ParameterName, 'The bytes of the tables of a signature, or of all')
            [CompletionResult]::new('--format', 'format', [CompletionResultType]::ParameterName, 'What --check prints in place of lines: sarif or junit')
            [CompletionResult]::new('--sort', 'sort', [CompletionResultType]::ParameterName, 'The order of what --check finds: by table, rule or severity')
            [CompletionResult]::new('--color', 'color', [CompletionResultType]::ParameterName, 'auto, always or never')
            [CompletionResult]::new('--check', 'check', [CompletionResultType]::ParameterName, 'What rules find wrong: all, or only what is an error, a warning or worse, or a note or worse')
            [CompletionResult]::new('--rules', 'rules', [CompletionResultType]::ParameterName, 'The rules of --check, or one of them, and what to do about what it finds')
            [CompletionResult]::new('-o', 'o', [CompletionResultType]::ParameterName, 'Each table, or those of --table, as a file in this folder: SIG.dat, or SIG1.dat and so on')
            [CompletionResult]::new('--extract', 'extract', [CompletionResultType]::ParameterName, 'Each table, or those of --table, as a file in this folder: SIG.dat, or SIG1.dat and so on')
            [CompletionResult]::new('--html', 'html', [CompletionResultType]::ParameterName, 'A page of all of it: the machine drawn, what rules find, and each table''s fields beside its bytes; - prints it')
            [CompletionResult]::new('--baseline', 'baseline', [CompletionResultType]::ParameterName, 'A document of an earlier --check --json, whose findings are left out')
            [CompletionResult]::new('--ignore-rules', 'ignore-rules', [CompletionResultType]::ParameterName, 'Findings that are accepted, and left out: lines RULE [SIG [FIELD]] [until DATE]: REASON')
            [CompletionResult]::new('--base', 'base', [CompletionResultType]::ParameterName, 'The machine with which those of --fleet are compared, in place of the largest group''s first')
            [CompletionResult]::new('--code', 'code', [CompletionResultType]::ParameterName, 'With --table: the operations of AML, one a line')
            [CompletionResult]::new('--text', 'text', [CompletionResultType]::ParameterName, 'The text of acpidump, of all tables or of those of --table')
            [CompletionResult]::new('--force', 'force', [CompletionResultType]::ParameterName, 'Files of --extract and --html replace those that are there')
            [CompletionResult]::new('--summary', 'summary', [CompletionResultType]::ParameterName, 'The machine in short')
            [CompletionResult]::new('--find', 'find', [CompletionResultType]::ParameterName, 'Every RSDP in memory, valid or not')
            [CompletionResult]::new('--fleet', 'fleet', [CompletionResultType]::ParameterName, 'Each input as machines, of which a folder has many: their groups, and what differs')
            [CompletionResult]::new('--alike', 'alike', [CompletionResultType]::ParameterName, 'Fields that differ between machines of one kind are left out of --fleet: addresses, sums, serial numbers')
            [CompletionResult]::new('-c', 'c', [CompletionResultType]::ParameterName, 'What differs between two inputs')
            [CompletionResult]::new('--compare', 'compare', [CompletionResultType]::ParameterName, 'What differs between two inputs')
            [CompletionResult]::new('--exit-code', 'exit-code', [CompletionResultType]::ParameterName, 'Status 1 if two inputs differ')
            [CompletionResult]::new('-j', 'j', [CompletionResultType]::ParameterName, 'One JSON document of what is shown')
            [CompletionResult]::new('--json', 'json', [CompletionResultType]::ParameterName, 'One JSON document of what is shown')
            [CompletionResult]::new('--strict', 'strict', [CompletionResultType]::ParameterName, 'Status 3 if a table is invalid')
            [CompletionResult]::new('-h', 'h', [CompletionResultType]::ParameterName, 'Print help')
            [CompletionResult]::new('--help', 'help', [CompletionResultType]::ParameterName, 'Print help')
            [CompletionResult]::new('-V', 'V', [CompletionResultType]::ParameterName, 'Print version')
            [CompletionResult]::new('--version', 'version', [CompletionResultType]::ParameterName, 'Print version')
            break
        }
    })

    $completions.Where{ $_.CompletionText -like "$wordToComplete*" } |
        Sort-Object -Property ListItemText
}
