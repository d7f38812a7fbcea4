" Schedules of committee. Copy editors/vim into ~/.vim, or add it to the runtimepath.
if exists("b:current_syntax")
  finish
endif

syntax match scheduleComment "^#.*$"
syntax match scheduleSetup "^\(member\|coin\|counter\|cap\|writers\)\ze "
syntax match scheduleEvent "^\(tx\|vote\|fvote\|cert\|send\|order\|see\|run\|close\|end\|turn\|show\|stop\|restart\|raw\|ack\|final\)\ze "
syntax match scheduleWord " \@<=\(honest\|faulty\|kept\|lost\|commit\|vote\|hold\|end\)\ze\( \|$\)"
syntax match scheduleInput "\(^\| \)\@<=[naxoisr]:"
syntax match scheduleVersion "@\d\+"
syntax match scheduleSpoiled "[?!]\ze\( \|$\)"
syntax match scheduleNumber "\(^\| \|:\)\@<=\d\+\ze\( \|$\)"
syntax match scheduleCommand "\(^\| \)\@<=\(split\|merge\|transfer\|vec\)\ze("
syntax match scheduleNative "\(^\| \)\@<=\(coin_zero\|coin_mint\|coin_burn\|coin_join_all\|counter_new\|counter_add\|counter_require\|vault_new\|vault_deposit\|vault_withdraw\|share\|freeze\|limit_new\|counter_add_limited\)\ze("
syntax match scheduleArgument "[(,]\@<=\(gas\|i\d\+\|r\d\+\(\.\d\+\)\?\)\ze[,)]"
syntax match scheduleKind "\(vec(\)\@<=\(coin\|cap\|counter\|vault\|key\|limit\)\ze[,)]"
" What no line may hold: spaces at the end, two spaces, a tab.
syntax match scheduleBad " \+$\|  \+\|\t"

highlight default link scheduleComment Comment
highlight default link scheduleSetup Type
highlight default link scheduleEvent Statement
highlight default link scheduleWord Keyword
highlight default link scheduleInput Special
highlight default link scheduleVersion Constant
highlight default link scheduleSpoiled Error
highlight default link scheduleNumber Number
highlight default link scheduleCommand Function
highlight default link scheduleNative Function
highlight default link scheduleArgument Identifier
highlight default link scheduleKind Type
highlight default link scheduleBad Error

let b:current_syntax = "schedule"
