;;; emacs.el --- bench61499 in Emacs 29, or 28 with eglot  -*- lexical-binding: t -*-
;; In init.el: (load "/path/to/editors/emacs.el")
;; Another command for the language server, before that: (setq bench61499-server '("/path/to/clients/lsp" "--connect" ":6149"))
(require 'eglot)

(load (expand-file-name "fb61499-words.el" (file-name-directory load-file-name)) nil t)

(defvar bench61499-server (list (expand-file-name "../clients/lsp" (file-name-directory load-file-name)))
  "The command of the language server, as a list of words.")

(defvar fb61499-mode-syntax-table
  (let ((table (make-syntax-table)))
    (dolist (it '((?\( . "()1n") (?\) . ")(4n") (?* . ". 23") (?/ . ". 12c") (?\n . "> c") (?\' . "\"") (?$ . "\\") (?_ . "w") (?# . "_")))
      (modify-syntax-entry (car it) (cdr it) table))
    table)
  "Comments are (* .. *) and // up to the end of the line; $ escapes in strings.")

(define-derived-mode fb61499-mode prog-mode "IEC 61499"
  "Texts of IEC 61499 units."
  (setq-local comment-start "// " comment-end "" comment-start-skip "\\(//+\\|(\\*+\\)[ \t]*"
              indent-tabs-mode nil tab-width 2 standard-indent 2
              font-lock-defaults
              (list (mapcar (lambda (it) (cons (concat "\\_<" (regexp-opt (cdr it)) "\\_>") (car it))) fb61499-words) nil t)))

(add-to-list 'auto-mode-alist '("\\.fb\\'" . fb61499-mode))
(defclass bench61499-eglot-server (eglot-lsp-server) ()
  :documentation "The language server, which may ask to show a document: the differences of two texts.")

(cl-defmethod eglot-client-capabilities :around ((_server bench61499-eglot-server))
  (let ((capabilities (cl-call-next-method)))
    (plist-put capabilities :window (plist-put (plist-get capabilities :window) :showDocument '(:support t)))))

(cl-defmethod eglot-handle-request ((_server bench61499-eglot-server) (_method (eql window/showDocument)) &key uri &allow-other-keys)
  (view-file-other-window (url-unhex-string (url-filename (url-generic-parse-url uri))))
  '(:success t))

(add-to-list 'eglot-server-programs (cons 'fb61499-mode (cons 'bench61499-eglot-server bench61499-server)))
(add-hook 'fb61499-mode-hook #'eglot-ensure)
