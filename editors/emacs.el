;;; Starts `sany serve` for each folder of .tla files. -*- lexical-binding: t -*-

(require 'eglot)

(define-derived-mode tla-mode prog-mode "TLA+"
  "TLA+ modules."
  (setq-local comment-start "\\* ")
  (setq-local comment-start-skip "\\\\\\*+ *"))

(add-to-list 'auto-mode-alist '("\\.tla\\'" . tla-mode))
(add-to-list 'eglot-server-programs '(tla-mode . ("/path/to/sany" "serve")))
(add-hook 'tla-mode-hook #'eglot-ensure)
