-- Specifications in Neovim, from 0.7 on: the language server `cise lsp`. g:cise_program says where the script is, if it isn't on the path.
vim.api.nvim_create_autocmd({ "BufNewFile", "BufRead" }, { pattern = "*.cise", command = "setfiletype cise" })

local client
vim.api.nvim_create_autocmd("FileType", {
  pattern = "cise",
  callback = function(event)
    local settings = { name = "cise", cmd = { vim.g.cise_program or "cise", "lsp" }, root_dir = vim.fn.getcwd() }
    if vim.lsp.start then -- from 0.8 on
      vim.lsp.start(settings)
      return
    end
    if not client or vim.lsp.client_is_stopped(client) then
      client = vim.lsp.start_client(settings)
    end
    if client then
      vim.lsp.buf_attach_client(event.buf, client)
    end
  end,
})
