" :make looks through the draft of the buffer; comments begin with ; in sections and with # elsewhere.
if exists("b:did_ftplugin")
  finish
endif
let b:did_ftplugin = 1
setlocal commentstring=;\ %s comments=:;,:#
compiler meldesk
let b:undo_ftplugin = "setlocal commentstring< comments< makeprg< errorformat<"
