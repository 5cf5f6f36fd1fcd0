-- What Neovim's own client gets of the language server: each answer is a line of JSON in the file that NEOVIM_INTO names.
local rows = {}
local function told(name, value) table.insert(rows, vim.fn.json_encode({ name, value })) end
local longest = tonumber(vim.env.LONGEST_WAIT or '60000')
local function await(what, is)
  if not vim.wait(longest, is, 20) then told('never', what) end
end

local function asked(method, more)
  local params = vim.tbl_extend('force', vim.lsp.util.make_position_params(0, 'utf-16'), more or {})
  local answers = vim.lsp.buf_request_sync(0, method, params, longest)
  local _, answer = next(answers or {})
  return answer and (answer.result or answer.err)
end

local function at(line, column) vim.api.nvim_win_set_cursor(0, { line, column }) end
local function text() return table.concat(vim.api.nvim_buf_get_lines(0, 0, -1, false), '\n') end
local function faults()
  return vim.tbl_map(function(it) return { it.code or it.user_data.lsp.code, it.lnum, it.col, it.end_col, it.message } end, vim.diagnostic.get(0))
end

local function look()
  await('a client', function() return next((vim.lsp.get_clients or vim.lsp.buf_get_clients)(vim.lsp.get_clients and { bufnr = 0 } or 0)) ~= nil end)
  await('a fault', function() return #vim.diagnostic.get(0) == 1 end)
  told('faults', faults())
  at(1, 8)
  told('hover', asked('textDocument/hover').contents.value)
  at(2, 10)
  vim.lsp.buf.definition()
  await('the definition', function() return vim.api.nvim_win_get_cursor(0)[1] == 6 end)
  told('definition', vim.api.nvim_win_get_cursor(0))
  told('keys', vim.tbl_map(function(it) return it.lhs end, vim.api.nvim_buf_get_keymap(0, 'n')))
  told('omnifunc', vim.bo.omnifunc)
  told('own', vim.fn.maparg('gr', 'n'))
  told('symbols', vim.tbl_map(function(it) return it.name end, asked('textDocument/documentSymbol')))
end

local function change()
  at(3, 10)
  told('completion', vim.tbl_map(function(it) return it.word end, vim.lsp.omnifunc and asked('textDocument/completion') and vim.lsp.util.text_document_completion_list_to_complete_items(asked('textDocument/completion'), '')))
  vim.api.nvim_buf_set_text(0, 0, 10, 0, 13, { 'two' })
  await('no fault', function() return #vim.diagnostic.get(0) == 0 end)
  at(1, 11)
  vim.lsp.buf.rename('pair')
  await('the new name', function() return text():find('pair') ~= nil end)
  told('renamed', text())
  vim.lsp.buf.formatting_sync({}, longest)
  told('formatted', text())
  vim.api.nvim_buf_set_lines(0, 0, 1, false, { 'first   frac 5' })
  await('another fault', function() return #vim.diagnostic.get(0) > 0 end)
  local range = { start = { line = 0, character = 0 }, ['end'] = { line = 0, character = 20 } }
  local actions = asked('textDocument/codeAction', { range = range, context = { diagnostics = {} } })
  told('actions', vim.tbl_map(function(it) return it.title end, actions))
  vim.lsp.util.apply_workspace_edit(actions[1].edit, 'utf-16')
  vim.api.nvim_buf_set_lines(0, 1, 2, false, { ' a   three' })
  vim.cmd('normal! 2Ggqq')
  told('gq', vim.api.nvim_buf_get_lines(0, 0, 3, false))
  told('mended', vim.api.nvim_buf_get_lines(0, 0, 1, false)[1])
end

local ok, failure = pcall(function() look() change() end)
if not ok then told('failed', tostring(failure)) end
vim.fn.writefile(rows, vim.env.NEOVIM_INTO)
vim.cmd('quitall!')
