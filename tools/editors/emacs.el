;;; emacs.el --- Starts j39plan-lsp for files in TOML  -*- lexical-binding: t -*-
;; For the init file; Eglot is part of Emacs 29, and a package before. The server leaves files alone that are no plans.
(require 'eglot)
(add-to-list 'eglot-server-programs '((conf-toml-mode toml-mode toml-ts-mode) . ("j39plan-lsp")))
(add-hook 'conf-toml-mode-hook #'eglot-ensure)
