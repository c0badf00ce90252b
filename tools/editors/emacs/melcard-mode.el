;;; melcard-mode.el --- Drafts and decks of melcard -*- lexical-binding: t; -*-

;;; Commentary:

;; Highlights drafts and decks, looks through them by `compile' (`meldesk explain'), and debugs them by dap-mode.
;; `melcard-tools' is the folder with the adapter `mel/debug.py'.

;;; Code:

(require 'compile)

;; words, written by tools/dev/make words
(defconst melcard-words
  '((instruction "NOP" "SETSW" "SETLA" "SETSWLA" "PUSHZ" "PUSHB" "PUSHW" "POPN" "POPB" "POPW" "PRIM" "BYTE" "LOAD" "STORE" "LOADI" "STOREI" "LOADA" "INDEX" "SETB" "CMPB" "ADDB" "SUBB" "SETW" "CMPW" "ADDW" "SUBW" "CLEARN" "TESTN" "INCN" "DECN" "NOTN" "CMPN" "ADDN" "SUBN" "ANDN" "ORN" "XORN")
    (register "SB" "ST" "DB" "LB" "DT" "PB" "PT")
    (condition "EQ" "LT" "LE" "GT" "GE" "NE" "ALL")
    (declaration "STATIC" "SESSION" "PUBLIC" "CONST" "DATA")
    (field "CLA" "INS" "P1" "P2" "P3" "Lc" "Le" "La" "SW")
    (statement "format" "power" "unit" "app" "load" "select" "delete" "dump" "apdu" "budget" "cut" "fail" "poke" "end")
    (flow "EXIT" "EXITSW" "EXITLA" "EXITSWLA" "BRANCH" "JUMP" "CALL" "RET" "RETI" "RETO" "RETIO"))
  "The words of drafts by their kinds.")
;; end of words

(defvar melcard-tools (expand-file-name "../.." (file-name-directory (file-truename (or load-file-name buffer-file-name))))
  "The folder of the tools, in which the debug adapter is.")

(defun melcard--any (kind)
  "A regular expression of the words of KIND."
  (regexp-opt (cdr (assq kind melcard-words)) 'symbols))

(defvar melcard-font-lock
  `(("^[ \t]*#>.*$" 0 font-lock-string-face t)
    ("^[ \t]*#[@!].*$" 0 font-lock-preprocessor-face t)
    (,(concat "^[ \t]*" (melcard--any 'statement)) 1 font-lock-keyword-face)
    ("^[ \t]*\\([A-Za-z_][A-Za-z0-9_]*\\):" 1 font-lock-function-name-face)
    (,(melcard--any 'declaration) . font-lock-type-face)
    (,(melcard--any 'flow) . font-lock-keyword-face)
    (,(melcard--any 'instruction) . font-lock-builtin-face)
    (,(melcard--any 'register) . font-lock-variable-name-face)
    (,(melcard--any 'field) . font-lock-variable-name-face)
    (,(melcard--any 'condition) . font-lock-constant-face))
  "What is highlighted in a draft.")

(defvar melcard-mode-syntax-table
  (let ((table (make-syntax-table)))
    (modify-syntax-entry ?\; "<" table)
    (modify-syntax-entry ?# "<" table)
    (modify-syntax-entry ?\n ">" table)
    (modify-syntax-entry ?_ "_" table)
    table)
  "Comments begin with ; in sections, and with # elsewhere.")

;;;###autoload
(define-derived-mode melcard-mode prog-mode "Draft"
  "A draft or a deck of melcard."
  (setq-local comment-start "; " comment-end "")
  (setq-local font-lock-defaults '(melcard-font-lock))
  (setq-local imenu-generic-expression '((nil "^[ \t]*\\([A-Za-z_][A-Za-z0-9_]*\\):" 1) ("Applications" "^app +\\([A-Za-z0-9_]+\\)" 1)))
  (when buffer-file-name
    (let ((name (shell-quote-argument (file-name-nondirectory buffer-file-name))))
      (setq-local compile-command (format "meldesk explain %s < %s" name name)))))

;;;###autoload
(add-to-list 'auto-mode-alist '("\\.\\(?:draft\\|deck\\)\\'" . melcard-mode))

(add-to-list 'compilation-error-regexp-alist-alist
             '(meldesk "^\\([^:\n]+\\):\\([0-9]+\\):\\([0-9]+\\): \\(?:\\(warning\\)\\|[A-Za-z]+\\): " 1 2 3 (4)))
(add-to-list 'compilation-error-regexp-alist 'meldesk)

(declare-function dap-register-debug-provider "dap-mode")
(declare-function dap-register-debug-template "dap-mode")
(declare-function dap-debug "dap-mode")
(declare-function dap--cur-session "dap-mode")
(declare-function dap--debug-session-active-frame "dap-mode")
(declare-function dap--send-message "dap-mode")
(declare-function dap--make-request "dap-mode")
(declare-function dap--resp-handler "dap-mode")
(declare-function dap--resume-application "dap-mode")
(declare-function dap--step "dap-mode")

(defun melcard--launch (given)
  "Complete the configuration GIVEN with the adapter and the buffer's draft."
  (let ((made (copy-sequence given)))
    (setq made (plist-put made :dap-server-path (list "python3" (expand-file-name "mel/debug.py" melcard-tools))))
    (plist-put made :program (or (plist-get given :program) buffer-file-name))))

(defun melcard-debug (line)
  "Debug the draft of the buffer.
With a prefix argument stop at the statement of LINE, which is that of point."
  (interactive (list (and current-prefix-arg (line-number-at-pos))))
  (require 'dap-mode)
  (dap-debug (append (list :type "melcard" :request "launch" :name (file-name-nondirectory buffer-file-name) :program buffer-file-name)
                     (and line (list :line line)))))

(defun melcard--ask (command arguments is-move)
  "Send the request COMMAND with ARGUMENTS, and show what is said.
IS-MOVE says that the play goes somewhere else, so that dap-mode asks for its frames anew."
  (let ((session (dap--cur-session)))
    (dap--send-message (dap--make-request command arguments)
                       (dap--resp-handler
                        (lambda (answer)
                          (when is-move (dap--resume-application session))
                          (let ((body (gethash "body" answer)))
                            (message "%s" (or (gethash "text" body) (gethash "result" body) "")))))
                       session)))

(defun melcard-say (text)
  "Say TEXT to the debugger's console.
It is `cut', `whole', `watch NAME', `goto LINE', `help' or an expression."
  (interactive "sSay to the debugger: ")
  (let ((frame (dap--debug-session-active-frame (dap--cur-session))))
    (melcard--ask "evaluate" (append (list :expression text :context "repl") (and frame (list :frameId (gethash "id" frame))))
                  (string-match-p "\\`\\(?:cut\\|whole\\|goto\\|back\\)\\_>" text))))

(defun melcard-step-back ()
  "Undo one instruction."
  (interactive)
  (dap--step "stepBack" (dap--cur-session)))

(defun melcard-reverse-continue ()
  "Go back to the last breakpoint."
  (interactive)
  (dap--step "reverseContinue" (dap--cur-session)))

(defun melcard-cut ()
  "Cut power in the next device write, and play on."
  (interactive)
  (melcard--ask "cut" '(:fill "0000000000000000") t))

(defun melcard-whole ()
  "Go back to the play without the cut."
  (interactive)
  (melcard--ask "whole" nil t))

(defun melcard-watch (name)
  "Stop when the bytes of NAME change."
  (interactive
   (let ((word (thing-at-point 'symbol t)))
     (list (read-string (if word (format "Stop when these bytes change (%s): " word) "Stop when these bytes change: ") nil nil word))))
  (melcard-say (concat "watch " name)))

(dolist (it '(("d" . melcard-debug) ("b" . dap-breakpoint-toggle) ("c" . dap-continue) ("n" . dap-next) ("s" . dap-step-in) ("o" . dap-step-out)
              ("p" . melcard-step-back) ("r" . melcard-reverse-continue) ("w" . melcard-watch) ("k" . melcard-cut) ("u" . melcard-whole)
              ("e" . dap-eval-thing-at-point) (":" . melcard-say) ("q" . dap-disconnect)))
  (define-key melcard-mode-map (kbd (concat "C-c C-d " (car it))) (cdr it)))

;; Debian's lsp-treemacs 0.4, which draws dap-mode's windows, reads a variable that its treemacs 2.8 does not have.
(defvar treemacs-text-scale nil)

(with-eval-after-load 'dap-mode
  (dap-register-debug-provider "melcard" #'melcard--launch)
  (dap-register-debug-template "melcard: this draft" (list :type "melcard" :request "launch" :name "melcard: this draft")))

(provide 'melcard-mode)
;;; melcard-mode.el ends here
