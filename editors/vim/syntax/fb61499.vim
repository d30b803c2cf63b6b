" Highlighting of texts of IEC 61499. editors/highlighting.py makes it.
if exists('b:current_syntax') | finish | endif
syntax case ignore
syntax iskeyword 48-57,65-90,95,97-122
syntax match fb61499Statement /\<\%(BY\|CASE\|DO\|ELSE\|ELSIF\|END_CASE\|END_FOR\|END_IF\|END_REPEAT\|END_WHILE\|EXIT\|FOR\|IF\|OF\|REPEAT\|RETURN\|THEN\|TO\|UNTIL\|WHILE\)\>#\@!/
syntax match fb61499Operator /\<\%(AND\|MOD\|NOT\|OR\|XOR\)\>#\@!/
syntax match fb61499Constant /\<\%(FALSE\|TRUE\)\>#\@!/
syntax match fb61499Keyword /\<\%(ADAPTER\|ADAPTER_CONNECTIONS\|ALGORITHM\|APPLICATION\|ARRAY\|DATA_CONNECTIONS\|DEVICE\|EC_STATES\|EC_TRANSITIONS\|END_ADAPTER\|END_ALGORITHM\|END_APPLICATION\|END_CONNECTIONS\|END_DEVICE\|END_EVENT\|END_FBS\|END_FUNCTION_BLOCK\|END_MAPPINGS\|END_PLUGS\|END_RESOURCE\|END_SERVICE\|END_SOCKETS\|END_STATES\|END_STRUCT\|END_SUBAPPLICATION\|END_SUBAPPS\|END_SYSTEM\|END_TRANSITIONS\|END_TYPE\|END_VAR\|EVENT_CONNECTIONS\|EVENT_INPUT\|EVENT_OUTPUT\|FBS\|FUNCTION_BLOCK\|MAPPINGS\|PLUGS\|RESOURCE\|SERVICE\|SOCKETS\|STRUCT\|SUBAPPLICATION\|SUBAPPS\|SYSTEM\|TYPE\|VAR\|VAR_INPUT\|VAR_OUTPUT\|WITH\)\>#\@!/
syntax match fb61499Type /\<\%(ANY\|BOOL\|BYTE\|DATE\|DATE_AND_TIME\|DINT\|DT\|DWORD\|INT\|LINT\|LREAL\|LWORD\|REAL\|SINT\|STRING\|TIME\|TIME_OF_DAY\|TOD\|UDINT\|UINT\|ULINT\|USINT\|WORD\|WSTRING\)\>#\@!/
syntax match fb61499String /'\%([^'$]\|\$.\)*'/
syntax match fb61499String /"\%([^"$]\|\$.\)*"/
syntax match fb61499Number /\<[0-9][0-9_]*\%(#[A-Za-z0-9_]\+\|\.[0-9]\+\%([Ee][+-]\?[0-9]\+\)\?\)\?/
syntax match fb61499Number /\<[A-Za-z_][A-Za-z0-9_]*#[+-]\?\%([A-Za-z0-9_#]\|\.[0-9]\@=\)\+/
syntax match fb61499Number /\c\<L\?REAL#[+-]\?\%([A-Za-z0-9_#]\|\.[0-9]\@=\|[Ee]\@1<=[+-][0-9]\@=\)\+/
syntax match fb61499Number /\c\<\%(D\|DATE\|TOD\|TIME_OF_DAY\|DT\|DATE_AND_TIME\)#[+-]\?\%([A-Za-z0-9_#]\|[.:-][0-9]\@=\)\+/
syntax match fb61499Comment /\/\/.*$/ contains=@Spell
syntax region fb61499Comment start=/(\*/ end=/\*)/ contains=@Spell
highlight default link fb61499Statement Statement
highlight default link fb61499Operator Operator
highlight default link fb61499Constant Constant
highlight default link fb61499Keyword Keyword
highlight default link fb61499Type Type
highlight default link fb61499String String
highlight default link fb61499Number Number
highlight default link fb61499Comment Comment
let b:current_syntax = 'fb61499'
