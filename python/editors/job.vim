" Vim syntax file for jobs: copy it to ~/.vim/syntax/job.vim, and write `autocmd BufRead,BufNewFile *.job setfiletype job`
if exists("b:current_syntax")
  finish
endif
syntax match jobNumber /\<\(0x[0-9a-fA-F][0-9a-fA-F_]*\|[0-9][0-9_]*\)\>/
syntax match jobWidth /\<u[1-9][0-9]\=\>/
syntax match jobOperator /\.\.\|<<\|>>\|&&\|||\|[-+*\/%&|^~<>=!]=\=/
syntax match jobComment /#.*$\|\/\/.*$/ contains=@Spell
syntax match jobFunction /\<\(slot\|width\|cancelled\|min\|max\|abs\)\ze(/
syntax keyword jobDeclares fn inline const param cell let group
syntax keyword jobControl if else while for in step grain return give break continue
syntax keyword jobTask spawn post wait sync cancel isolate call psum pmin pmax
highlight default link jobNumber Number
highlight default link jobWidth Type
highlight default link jobOperator Operator
highlight default link jobComment Comment
highlight default link jobFunction Function
highlight default link jobDeclares Keyword
highlight default link jobControl Conditional
highlight default link jobTask Statement
let b:current_syntax = "job"
