-- Starts `sany serve` for each folder of .tla files.
vim.filetype.add({ extension = { tla = "tla" } })

-- One server for each folder. Neovim 0.8 and later start it by themselves.
local servers = {}
local start = vim.lsp.start or function(config)
  servers[config.root_dir] = servers[config.root_dir] or vim.lsp.start_client(config)
  vim.lsp.buf_attach_client(0, servers[config.root_dir])
end

vim.api.nvim_create_autocmd("FileType", {
  pattern = "tla",
  callback = function(event)
    start({
      name = "sany",
      cmd = { "/path/to/sany", "serve" },
      root_dir = vim.fn.fnamemodify(vim.api.nvim_buf_get_name(event.buf), ":p:h"),
    })
  end,
})
