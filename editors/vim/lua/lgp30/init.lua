-- The language server of the LGP-30 in Neovim, 0.7 or later, without a plugin.
local M = {}

-- The command of the server; set it before a source is opened where the program is elsewhere.
M.command = { 'lgp30-language-server', '--stdio' }
-- What the server is set to: whether places and digits are shown beside lines.
M.settings = { inlayHints = true }

local client
local told = false

-- What keys do in a source, where nothing else is mapped to them. 0.11 has grr and others by itself, and gr would hold these up.
local function deeds()
  local next_fault = vim.diagnostic.jump and function() vim.diagnostic.jump({ count = 1, float = true }) end or vim.diagnostic.goto_next
  return {
    K = vim.lsp.buf.hover, gd = vim.lsp.buf.definition, gr = vim.fn.maparg('grr', 'n') == '' and vim.lsp.buf.references or nil,
    ['<F2>'] = vim.lsp.buf.rename, ['<F3>'] = M.format, ['<F4>'] = vim.lsp.buf.code_action, ['<F8>'] = next_fault,
  }
end

local function keys(buffer)
  for key, deed in pairs(deeds()) do
    if vim.fn.maparg(key, 'n') == '' then vim.keymap.set('n', key, deed, { buffer = buffer, desc = 'LGP-30' }) end
  end
end

-- Puts a source into columns.
function M.format()
  if vim.lsp.buf.format then vim.lsp.buf.format() else vim.lsp.buf.formatting_sync() end
end

-- Puts lines into columns, as formatexpr: gq does it with the lines that are named after it.
function M.formatexpr()
  if vim.tbl_contains({ 'i', 'R' }, vim.fn.mode()) or not client then return 1 end
  local first, last = vim.v.lnum, vim.v.lnum + vim.v.count - 1
  local params = vim.lsp.util.make_formatting_params({})
  params.range = { start = { line = first - 1, character = 0 }, ['end'] = { line = last - 1, character = #vim.fn.getline(last) } }
  for _, answer in pairs(vim.lsp.buf_request_sync(0, 'textDocument/rangeFormatting', params, 5000) or {}) do
    if answer.result then vim.lsp.util.apply_text_edits(answer.result, 0, 'utf-16') end
  end
  return 0
end

-- Starts the server for the source in a buffer.
local function started(buffer)
  local config = { name = 'lgp30', cmd = M.command, root_dir = vim.fn.getcwd(), init_options = M.settings }
  if vim.lsp.start then return vim.lsp.start(config, { bufnr = buffer }) end
  if not client or not vim.lsp.get_client_by_id(client) then client = vim.lsp.start_client(config) end
  if client then vim.lsp.buf_attach_client(buffer, client) end
  return client
end

function M.start()
  if vim.fn.executable(M.command[1]) == 0 then
    if not told then vim.notify(M.command[1] .. ' is not found: put it into PATH, or set require("lgp30").command', vim.log.levels.WARN) end
    told = true
    return
  end
  local buffer = vim.api.nvim_get_current_buf()
  client = started(buffer)
  if not client then return end
  vim.bo[buffer].omnifunc = 'v:lua.vim.lsp.omnifunc'
  vim.bo[buffer].formatexpr = "v:lua.require'lgp30'.formatexpr()"
  keys(buffer)
end

return M
