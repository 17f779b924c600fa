" Made by scripts/make-editors from the tables of tools/movetext; don't edit.
if exists("b:current_syntax")
  finish
endif
syn case match
syn keyword movetextInstruction Pop Ret BrTrue BrFalse Branch LdU64 LdConst LdTrue
syn keyword movetextInstruction LdFalse CopyLoc MoveLoc StLoc MutBorrowLoc ImmBorrowLoc MutBorrowField ImmBorrowField
syn keyword movetextInstruction Call Pack Unpack ReadRef WriteRef Add Sub Mul
syn keyword movetextInstruction Mod Div BitOr BitAnd Xor Or And Not
syn keyword movetextInstruction Eq Neq Lt Gt Le Ge Abort Nop
syn keyword movetextInstruction Exists MutBorrowGlobal ImmBorrowGlobal MoveFrom MoveTo FreezeRef Shl Shr
syn keyword movetextInstruction LdU8 LdU128 CastU8 CastU64 CastU128 LdU16 LdU32 CastU16
syn keyword movetextInstruction CastU32
syn keyword movetextType bool u8 u64 u128 address signer u16 u32
syn keyword movetextAbility copy drop store key
syn keyword movetextConstant true false
syn keyword movetextKeyword Self acquires as audit budget by bytes certificate
syn keyword movetextKeyword entry fun has import json label let locals
syn keyword movetextKeyword module mut prove public publish record run show
syn keyword movetextKeyword struct tables version
syn keyword movetextTable addresses constants fields functions identifiers modules signatures structs
syn match movetextNumber /@\=\<\(0x[0-9A-Fa-f_]\+\|[0-9][0-9_]*\)\(u8\|u16\|u32\|u64\|u128\)\=\>/
syn match movetextIndex /#[0-9]\+/
syn match movetextLabel /^\s*\(label\s\+\)\=\h\w*:\(:\)\@!/
syn region movetextFile start=/"/ end=/"/ oneline
syn region movetextBytes start=/\<x"/ end=/"/
syn match movetextComment ,//.*$, contains=@Spell
syn region movetextComment start=,/\*, end=,\*/, contains=@Spell
hi def link movetextInstruction Function
hi def link movetextType Type
hi def link movetextAbility StorageClass
hi def link movetextConstant Boolean
hi def link movetextKeyword Keyword
hi def link movetextTable Structure
hi def link movetextNumber Number
hi def link movetextBytes String
hi def link movetextFile String
hi def link movetextIndex Identifier
hi def link movetextLabel Label
hi def link movetextComment Comment
let b:current_syntax = "movetext"
