;;; imp-mode.el --- Editing .imp programs, with their states and verdicts  -*- lexical-binding: t -*-

;; Put this folder on the `load-path', and in the init file:
;;
;;     (require 'imp-mode)
;;     (add-hook 'imp-mode-hook #'eglot-ensure)
;;
;; Eglot then starts the language server for each project: the one of this repository, else daig-lsp on the PATH.
;; `imp-mode-settings' are the settings that editors/README.md tells of.

;;; Code:

(defgroup imp nil "Programs in imp." :group 'languages)

(defcustom imp-mode-indent 2 "How many spaces a block is indented by." :type 'integer :group 'imp)

(defcustom imp-mode-settings nil
  "The settings of the language server, as (:domain \"octagon\" :budget 200)."
  :type 'plist :group 'imp)

(defconst imp-mode--server
  (expand-file-name "../daig_lsp.py" (file-name-directory (or load-file-name buffer-file-name default-directory)))
  "The language server of the repository or the installation that this file is in.")

(defvar imp-mode-syntax-table
  (let ((table (make-syntax-table)))
    (modify-syntax-entry ?_ "w" table)
    (modify-syntax-entry ?/ ". 12" table)
    (modify-syntax-entry ?\n ">" table)
    (dolist (it '(?+ ?- ?* ?% ?= ?< ?> ?! ?& ?|)) (modify-syntax-entry it "." table))
    table)
  "What the characters of a program are.")

(defconst imp-mode--words
  `((,(regexp-opt '("proc" "var" "if" "else" "while" "break" "skip" "call" "assert" "input" "new" "len") 'words)
     . font-lock-keyword-face)
    (,(regexp-opt '("int" "array" "list") 'words) . font-lock-type-face)
    (,(regexp-opt '("null") 'words) . font-lock-constant-face)
    ("\\_<\\(?:proc\\|call\\)[ \t\n]+\\([A-Za-z_][A-Za-z0-9_]*\\)" 1 font-lock-function-name-face)
    ("\\.[ \t]*\\(next\\|item\\)\\_>" 1 font-lock-variable-name-face))
  "How the words of a program look.")

(defun imp-mode-indent-line ()
  "Indents a line by the blocks that it is in."
  (interactive)
  (let ((column (save-excursion
                  (back-to-indentation)
                  (let ((closes (eq (char-after) ?\})))
                    (* imp-mode-indent (max 0 (- (car (syntax-ppss)) (if closes 1 0))))))))
    (if (<= (current-column) (current-indentation))
        (indent-line-to column)
      (save-excursion (indent-line-to column)))))

;;;###autoload
(define-derived-mode imp-mode prog-mode "imp"
  "The mode of .imp programs."
  (setq-local comment-start "// "
              comment-end ""
              comment-start-skip "//+[ \t]*"
              indent-tabs-mode nil
              indent-line-function #'imp-mode-indent-line
              electric-indent-chars (append '(?\}) electric-indent-chars)
              font-lock-defaults '(imp-mode--words)))

;;;###autoload
(add-to-list 'auto-mode-alist '("\\.imp\\'" . imp-mode))

(defun imp-mode--contact (&rest _)
  "How eglot starts the language server."
  `(,@(if (file-exists-p imp-mode--server) (list "python3" imp-mode--server) '("daig-lsp"))
    ,@(when imp-mode-settings (list :initializationOptions imp-mode-settings))))

(with-eval-after-load 'eglot
  (add-to-list 'eglot-server-programs '(imp-mode . imp-mode--contact)))

(provide 'imp-mode)
;;; imp-mode.el ends here
