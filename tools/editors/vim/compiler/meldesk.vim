" Reads what `meldesk explain` writes: NAME:LINE:COLUMN: CAUSE: TEXT.
if exists("current_compiler")
  finish
endif
let current_compiler = "meldesk"
CompilerSet makeprg=meldesk\ explain\ %:S\ <\ %:S
CompilerSet errorformat=%f:%l:%c:\ %tarning:\ %m,%f:%l:%c:\ %m
