-- Run by checks/editor in a folder with a.cise: diagnostics, a jump, a new name, and the tokens of `mend`, as Neovim's client does them.
local found = {}
vim.g.cise_program = os.getenv("CISE_SCRIPT")
dofile(os.getenv("CISE_EDITORS") .. "/neovim/cise.lua")

local function wait(what, holds)
  if not vim.wait(60000, holds, 20) then
    found.failed = what
    vim.fn.writefile({ vim.json.encode(found) }, "found.json")
    vim.cmd("cquit")
  end
end

local function text()
  return table.concat(vim.api.nvim_buf_get_lines(0, 0, -1, false), "\n") .. "\n"
end

local function place(line, piece)
  local row = vim.api.nvim_buf_get_lines(0, line - 1, line, false)[1]
  vim.api.nvim_win_set_cursor(0, { line, row:find(piece, 1, true) - 1 })
end

vim.cmd("edit a.cise")
wait("diagnostics", function()
  return #vim.diagnostic.get(0) > 0
end)
found.diagnostics = vim.tbl_map(function(it)
  return { it.lnum + 1, it.col + 1, it.severity, it.message }
end, vim.diagnostic.get(0))

place(26, "bid")
vim.lsp.buf.definition()
wait("the definition", function()
  return vim.api.nvim_win_get_cursor(0)[1] ~= 26
end)
found.definition = vim.api.nvim_win_get_cursor(0)

local before = text()
vim.lsp.buf.rename("highest_bid")
wait("the new name", function()
  return text() ~= before
end)
found.renamed = text()

wait("verdicts of the new text", function()
  return #vim.diagnostic.get(0) == 5
end)
vim.ui.select = function(items, _, choose)
  choose(items[1], 1)
end
place(19, "requires")
before = text()
-- (the verdicts may still be those of the old text: there are as many of the new one)
local asked = vim.lsp.util.make_range_params()
asked.context = { diagnostics = vim.lsp.diagnostic.get_line_diagnostics() }
local until_then, has_action = vim.loop.now() + 60000, false
while not has_action and vim.loop.now() < until_then do
  for _, it in pairs(vim.lsp.buf_request_sync(0, "textDocument/codeAction", asked, 5000) or {}) do
    has_action = has_action or it.result and #it.result > 0
  end
  vim.wait(50)
end
vim.lsp.buf.code_action()
wait("the tokens", function()
  return text() ~= before
end)
found.mended = text()
wait("no diagnostics", function()
  return #vim.diagnostic.get(0) == 0
end)
vim.lsp.stop_client(vim.lsp.get_active_clients())
vim.fn.writefile({ vim.json.encode(found) }, "found.json")
vim.cmd("qa!")
