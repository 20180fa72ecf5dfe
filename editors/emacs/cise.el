;;; cise.el --- Specifications of the CISE checker  -*- lexical-binding: t -*-

;; A mode with colours for files NAME.cise, `M-x compile' that goes to each place, and the language
;; server by eglot: M-x eglot, or (add-hook 'cise-mode-hook #'eglot-ensure).

;;; Code:

(defgroup cise nil "Specifications of the CISE checker." :group 'languages)

(defcustom cise-program "cise"
  "The script of the checker."
  :type 'string
  :group 'cise)

(defvar cise-mode-syntax-table
  (let ((table (make-syntax-table)))
    (modify-syntax-entry ?# "<" table)
    (modify-syntax-entry ?\n ">" table)
    (modify-syntax-entry ?_ "_" table)
    table))

(defconst cise-items
  '("cise" "sort" "const" "relation" "counter" "initially" "token" "conflict" "invariant" "operation" "end"))
(defconst cise-lines '("requires" "observes" "insert" "remove" "add" "set" "takes" "when" "shared" "exclusive"))
(defconst cise-formulas '("not" "and" "or" "implies" "forall" "exists"))
(defconst cise-values '("true" "false" "int"))

(defconst cise-font-lock
  `((,(regexp-opt cise-items 'symbols) . font-lock-keyword-face)
    (,(regexp-opt cise-lines 'symbols) . font-lock-builtin-face)
    (,(regexp-opt cise-formulas 'symbols) . font-lock-keyword-face)
    (,(regexp-opt cise-values 'symbols) . font-lock-constant-face)
    ("\\_<\\(?:operation\\|invariant\\)\\s-+\\(\\(?:\\sw\\|\\s_\\)+\\)" 1 font-lock-function-name-face)
    ("\\_<sort\\s-+\\(\\(?:\\sw\\|\\s_\\)+\\)" 1 font-lock-type-face)))

(defun cise-indent-line ()
  "Indents a line: those of an operation by two columns."
  (interactive)
  (let ((inside (save-excursion
                  (beginning-of-line)
                  (and (re-search-backward "^[ \t]*\\(operation\\|end\\|sort\\|const\\|relation\\|counter\\|token\\|conflict\\|invariant\\|initially\\)\\_>" nil t)
                       (string= (match-string 1) "operation"))))
        (head (save-excursion
                (back-to-indentation)
                (looking-at (regexp-opt (remove "cise" cise-items) 'symbols)))))
    (indent-line-to (if (and inside (not head)) 2 0))))

;;;###autoload
(define-derived-mode cise-mode prog-mode "CISE"
  "Specifications of the CISE checker."
  (setq-local font-lock-defaults '(cise-font-lock)
              comment-start "# "
              comment-start-skip "#+ *"
              indent-line-function #'cise-indent-line
              compile-command (format "%s explain --places %s" cise-program
                                      (if buffer-file-name (shell-quote-argument buffer-file-name) ""))))

;;;###autoload
(add-to-list 'auto-mode-alist '("\\.cise\\'" . cise-mode))

(with-eval-after-load 'eglot
  (add-to-list 'eglot-server-programs `(cise-mode . ,(lambda (&rest _) (list cise-program "lsp")))))

(provide 'cise)
;;; cise.el ends here
