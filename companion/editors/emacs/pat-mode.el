;;; pat-mode.el --- Programs of pat -*- lexical-binding: t -*-
;; Colours, and the language server by Eglot, which Emacs has from version 29 on (before: the package eglot).
;; Set it up by a line of init.el: (load "CHECKOUT/companion/editors/emacs/pat-mode.el")

(defconst pat-server
  (expand-file-name "../../server.js" (file-name-directory (file-truename (or load-file-name buffer-file-name))))
  "The language server.")

(defvar pat-mode-syntax-table
  (let ((table (make-syntax-table)))
    (modify-syntax-entry ?/ ". 12" table)
    (modify-syntax-entry ?\n ">" table)
    (modify-syntax-entry ?_ "_" table)
    table))

(defconst pat-font-lock
  `((,(regexp-opt '("interface" "def" "let" "in" "if" "else" "print" "new" "spawn" "guard" "free" "fail" "receive" "from") 'symbols)
     . font-lock-keyword-face)
    (,(regexp-opt '("Unit" "Bool" "Int" "String") 'symbols) . font-lock-type-face)
    (,(regexp-opt '("true" "false") 'symbols) . font-lock-constant-face)
    ("\\_<def +\\(\\(?:\\sw\\|\\s_\\)+\\)" 1 font-lock-function-name-face)
    ("\\_<\\(?:interface +\\|new\\[\\)\\(\\(?:\\sw\\|\\s_\\)+\\)" 1 font-lock-type-face)
    ("\\_<\\(\\(?:\\sw\\|\\s_\\)+\\)[!?]\\S-" 1 font-lock-type-face)))

;;;###autoload
(define-derived-mode pat-mode prog-mode "pat"
  "Programs of pat."
  (setq-local font-lock-defaults '(pat-font-lock))
  (setq-local comment-start "// ")
  (setq-local comment-start-skip "// *"))

;;;###autoload
(add-to-list 'auto-mode-alist '("\\.pat\\'" . pat-mode))

(with-eval-after-load 'eglot
  (add-to-list 'eglot-server-programs `(pat-mode . ("node" ,pat-server))))
(when (require 'eglot nil t)
  (add-hook 'pat-mode-hook #'eglot-ensure))

(provide 'pat-mode)
;;; pat-mode.el ends here
