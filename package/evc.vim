" The syntax of traces and scripts of evc. Put it into ~/.vim/syntax/, and into ~/.vimrc:
"   autocmd BufNewFile,BufRead *.trace,*.script setfiletype evc
if exists('b:current_syntax')
    finish
endif
syntax case match
syntax match evcHead /\%1l^evc-\(trace\|script\) [12]$/
syntax keyword evcDeclare limit workers eventcount sequencer cells buffer database semaphore both
syntax keyword evcRight signal observe take use
syntax keyword evcPart run end worker schedule repeat
syntax keyword evcAct advance read await go ticket put get hand produce consume write snapshot p v pboth
syntax keyword evcReply done pending last
syntax match evcNumber /\<\d\+\>/
highlight default link evcHead PreProc
highlight default link evcDeclare Type
highlight default link evcRight StorageClass
highlight default link evcPart Statement
highlight default link evcAct Function
highlight default link evcReply Constant
highlight default link evcNumber Number
let b:current_syntax = 'evc'
