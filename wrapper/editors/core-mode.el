;;; core-mode.el --- texts of grinc: Core, modules, lambdas, equations and types  -*- lexical-binding: t -*-

;;; Commentary:
;; (require 'core-mode) in the file of settings; files that end in .core are then shown so.

;;; Code:
(defvar core-mode-syntax-table
  (let ((table (make-syntax-table)))
    (modify-syntax-entry ?- ". 12" table)
    (modify-syntax-entry ?\n ">" table)
    (modify-syntax-entry ?_ "_" table)
    (modify-syntax-entry ?' "_" table)
    (modify-syntax-entry ?\\ "." table)
    (modify-syntax-entry ?\" "." table)
    table)
  "Two hyphens begin a comment; a quote is a part of a name.")

(defconst core-font-lock-keywords
  `((,(regexp-opt '("data" "let" "in" "case" "of" "module" "export" "import" "type" "sig") 'symbols) . font-lock-keyword-face)
    (,(regexp-opt '("add" "sub" "mul" "quot" "rem" "eq" "lt") 'symbols) . font-lock-builtin-face)
    ("\\_<[A-Z]\\(?:\\sw\\|\\s_\\)*" . font-lock-type-face)
    ("^\\([a-z_]\\(?:\\sw\\|\\s_\\)*\\)" 1 font-lock-function-name-face)
    ("-?\\_<[0-9]+" . font-lock-constant-face))
  "Keywords, primitives, constructors, what a line declares, and integers.")

;;;###autoload
(define-derived-mode core-mode prog-mode "Core"
  "Texts of grinc."
  (setq-local comment-start "-- ")
  (setq-local comment-end "")
  (setq-local font-lock-defaults '(core-font-lock-keywords nil nil))
  (setq-local compile-command (concat "grinc check " (shell-quote-argument (or buffer-file-name "")))))

;;;###autoload
(add-to-list 'auto-mode-alist '("\\.core\\'" . core-mode))

(provide 'core-mode)
;;; core-mode.el ends here
