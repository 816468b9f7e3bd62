" Vim syntax of what lincheck reads: developments, specifications, formula files, certificates, hints and plans.
if exists("b:current_syntax")
  finish
endif

" A hyphen and a letter behind it are one word: `lin-other`, `write-a`.
syntax iskeyword @,48-57,_,-,.

" Words of the grammar may be names too, so most of them count only as the first word of a list, and edges only behind `on`.
syntax match lincheckForm "\v\(@1<=(spec|object|formula|certificate|hints|plan)>"
syntax match lincheckPart "\v\(@1<=(abstract|op|branch|choice|array|aux|action|invariant|idle|body|point|assert|on)>"
syntax match lincheckPart "\v\(@1<=(vars|cols|hyps|goal|proof|phase|call|upto|times)>"
syntax match lincheckInstruction "\v\(@1<=(load|store|cas|faa|set|if|return)>"
syntax match lincheckRider "\v\(@1<=(lin|lin-by|lin-other|lin-other-by|note|note-by|when)>"
syntax match lincheckEdge "\v(\(on )@4<=(next|then|else)>"
syntax match lincheckConnective "\v\(@1<=(not|and|or|forall|exists)>"
syntax match lincheckRelation "\v\(@1<=(\<\=|\=\>|\=|\+|-|\*)[ )]@="
syntax match lincheckTerm "\v\(@1<=(rd|affine)>"
syntax match lincheckStep "\v\(@1<=(split|cases|push|fresh|trich|inst|cut|written|same|divide|sum|opposite|by|use)>"
syntax match lincheckOpen "\v\(@1<=open>"
syntax match lincheckNumber "\v(^|[( \t])@1<=-?\d+($|[) \t;])@="
syntax match lincheckVariable "\v(^|[( \t])@1<=\?\d+>"
syntax keyword lincheckSystem self N pend arg1 arg2 arg3 rep1 rep2 rep3 noted note1 note2 note3
syntax match lincheckComment ";.*$" contains=@Spell

highlight default link lincheckComment Comment
highlight default link lincheckNumber Number
highlight default link lincheckVariable Identifier
highlight default link lincheckRelation Operator
highlight default link lincheckForm Structure
highlight default link lincheckPart Keyword
highlight default link lincheckInstruction Statement
highlight default link lincheckRider PreProc
highlight default link lincheckEdge Label
highlight default link lincheckConnective Operator
highlight default link lincheckTerm Function
highlight default link lincheckStep Statement
highlight default link lincheckOpen Todo
highlight default link lincheckSystem Type

let b:current_syntax = "lincheck"
