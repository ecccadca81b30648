-- Neovim: starts j39plan-lsp for files in TOML; the server leaves those alone that are no plans. Load it by `luafile` or copy it into init.lua.
local client

vim.api.nvim_create_autocmd("FileType", {
  pattern = "toml",
  callback = function(event)
    local config = {
      name = "j39plan",
      cmd = { "j39plan-lsp" },
      root_dir = vim.fn.getcwd(),
      init_options = { reference = vim.g.j39plan_reference },
    }
    if vim.lsp.start then
      vim.lsp.start(config)
    else -- before Neovim 0.8
      client = client or vim.lsp.start_client(config)
      vim.lsp.buf_attach_client(event.buf, client)
    end
    vim.bo[event.buf].omnifunc = "v:lua.vim.lsp.omnifunc"
  end,
})
