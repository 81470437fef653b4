" Vim syntax of Gallium's sources, which docs/language.md describes. editors/check tests it.
if exists('b:current_syntax')
  finish
endif

syn case match
" A word goes on over letters, digits, _ and dots, so that a field is one.
syn iskeyword a-z,A-Z,48-57,_,.

syn keyword galliumDeclaration table map vector int capacity length let
syn keyword galliumStatement process look put del if else repeat send drop
syn keyword galliumFunction byte cast select adjust
syn keyword galliumField meta.port meta.len
syn keyword galliumField has.ip has.tcp has.udp
syn keyword galliumField eth.dst eth.src eth.type
syn keyword galliumField vlan.pcp vlan.dei vlan.id
syn keyword galliumField ip.version ip.ihl ip.tos ip.len ip.id ip.flags ip.frag ip.ttl ip.proto ip.sum ip.src ip.dst
syn keyword galliumField tcp.sport tcp.dport tcp.seq tcp.ack tcp.off tcp.res tcp.flags tcp.win tcp.sum tcp.urg
syn keyword galliumField udp.sport udp.dport udp.len udp.sum

" What begins no token of the language, such as a > or a ! alone.
syn match galliumError /[^[:alnum:]_[:blank:]]/
syn match galliumPunctuation /[][(){},;]/
syn match galliumOperator /->\|==\|!=\|<=\|<<\|>>\|[:=+*/%&|^~<-]/
" Of the words with a dot only the fields are tokens, and of those with a digit in front only numbers.
syn match galliumError /\<\a[[:alnum:]_]*\.[[:alnum:]_.]*/
syn match galliumError /\<\d[[:alnum:]_]*/
syn match galliumNumber /\<\%(0x\x\+\|\d\+\)[[:alnum:]_]\@!/
syn match galliumComment /\/\/.*/ contains=@Spell

hi def link galliumDeclaration Type
hi def link galliumStatement Statement
hi def link galliumFunction Function
hi def link galliumField Identifier
hi def link galliumPunctuation Delimiter
hi def link galliumOperator Operator
hi def link galliumNumber Number
hi def link galliumComment Comment
hi def link galliumError Error

let b:current_syntax = 'gallium'
