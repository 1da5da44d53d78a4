;;; shim-mode.el --- A mode for SHIM -*- lexical-binding: t -*-

;;; Commentary:
;; Colours and indents programs in SHIM, the deterministic concurrent language.  `M-x compile' checks the file, and
;; `M-x next-error' goes to the place of a refusal.

;;; Code:

(require 'compile)
(require 'prog-mode)

(defgroup shim nil "Programs in SHIM." :group 'languages)

(defface shim-number-face '((t :inherit font-lock-constant-face)) "Numbers in SHIM." :group 'shim)
(defface shim-sign-face '((t :inherit default)) "Signs in SHIM." :group 'shim)
(defface shim-header-face '((t :inherit font-lock-preprocessor-face)) "The header of version 2." :group 'shim)

(defvar shim-mode-syntax-table
  (let ((table (make-syntax-table)))
    (modify-syntax-entry ?/ ". 124b" table)
    (modify-syntax-entry ?* ". 23" table)
    (modify-syntax-entry ?\n "> b" table)
    (modify-syntax-entry ?_ "w" table)
    (modify-syntax-entry ?\" "." table)
    (modify-syntax-entry ?\' "." table)
    (dolist (sign '(?= ?+ ?- ?% ?& ?| ?^ ?~ ?! ?< ?> ?, ?\;))
      (modify-syntax-entry sign "." table))
    table))

(defun shim-is-version-2 ()
  "Whether the text begins with the header of version 2."
  (save-excursion
    (save-match-data
      (goto-char (point-min))
      (forward-comment (buffer-size))
      (looking-at "shim[ \t\n\r\v\f]+\\(0*2\\|0[xX]0*2\\)[ \t\n\r\v\f]*;"))))

(defun shim-match-version-2 (limit)
  "Find the next int64 or header before LIMIT in a text of version 2."
  (and (shim-is-version-2)
       (re-search-forward "\\_<\\(?:\\(int64\\)\\|\\(shim\\)[ \t\n\r\v\f]+[0-9xX]+[ \t\n\r\v\f]*;\\)" limit t)))

(defvar shim-font-lock-keywords
  `((shim-match-version-2 (1 font-lock-type-face nil t) (2 'shim-header-face nil t))
    (,(regexp-opt '("void" "bool" "int" "int8" "int16" "int32" "uint8" "uint16" "uint32" "istream" "ostream") 'words)
     . font-lock-type-face)
    (,(regexp-opt '("true" "false") 'words) . font-lock-constant-face)
    (,(regexp-opt '("if" "else" "while" "for" "try" "catch" "throw" "throws") 'words) . font-lock-keyword-face)
    (,(regexp-opt '("par" "next" "put" "get") 'words) . font-lock-builtin-face)
    ("\\<\\([A-Za-z_][A-Za-z0-9_]*\\)[ \t\n\r\v\f]*(" 1 font-lock-function-name-face)
    ("\\<\\(?:0[xX][0-9a-fA-F]+\\|[0-9]+\\)\\>" . 'shim-number-face)
    ("[=+*/%&|^~!<>-]" . 'shim-sign-face))
  "What is coloured in `shim-mode'.")

(defun shim-indent-line ()
  "Indent this line by two columns for each brace around it."
  (interactive)
  (let ((depth (save-excursion
                 (beginning-of-line)
                 (let ((depth (car (syntax-ppss))))
                   (skip-chars-forward " \t")
                   (if (looking-at "[})]") (1- depth) depth)))))
    (if (<= (current-column) (current-indentation))
        (indent-line-to (* 2 (max 0 depth)))
      (save-excursion (indent-line-to (* 2 (max 0 depth)))))))

(defvar-local shim-compiled-file nil "The file that the command of this buffer checks.")

(defun shim-refused-file ()
  "The file of a line `refused LINE CAUSE', which names none."
  (or shim-compiled-file "*shim*"))

;;;###autoload
(define-derived-mode shim-mode prog-mode "SHIM"
  "A mode for programs in SHIM."
  (setq-local comment-start "// ")
  (setq-local comment-end "")
  (setq-local comment-start-skip "\\(?://+\\|/\\*+\\)[ \t]*")
  (setq-local font-lock-defaults '(shim-font-lock-keywords))
  (setq-local indent-line-function #'shim-indent-line)
  (when buffer-file-name
    (setq-local compile-command
                (format "%s check -- %s"
                        (if (executable-find "shim-see") "shim-see" "shim")
                        (shell-quote-argument (file-name-nondirectory buffer-file-name))))))

;; shim-see says FILE:LINE:COLUMN, which Emacs knows.  shim alone says the line: the file is the last word of the command.
(defun shim-note-compiled-file (process)
  "Keep the file of the command that PROCESS does."
  (with-current-buffer (process-buffer process)
    (let ((command (car (bound-and-true-p compilation-arguments))))
      (when (and command (string-match "\\<shim\\> .*?\\([^ ]+\\.shim\\)" command))
        (setq shim-compiled-file (match-string 1 command))))))

(add-hook 'compilation-start-hook #'shim-note-compiled-file)
(add-to-list 'compilation-error-regexp-alist-alist '(shim "^refused \\([0-9]+\\) " shim-refused-file 1))
(add-to-list 'compilation-error-regexp-alist 'shim)

;;;###autoload
(add-to-list 'auto-mode-alist '("\\.shim\\'" . shim-mode))

(provide 'shim-mode)
;;; shim-mode.el ends here
