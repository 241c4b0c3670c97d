-- What view/try_neovim lets Neovim do, without a screen: it opens a chart with a fault, mends it, asks for what stands at names,
-- renames an event, lays the chart out and writes it. What it saw goes to the file $SEEN, as JSON.
local seen = {}
local here = vim.fn.expand('<sfile>:p:h')
vim.opt.runtimepath:append(here .. '/../vim')
vim.opt.runtimepath:append(here)
vim.cmd('filetype on')
require('flowc').setup { command = { 'python3', here .. '/../../flowls' } }

local function wait(what)
  if not vim.wait(20000, what, 20) then
    seen.late = (seen.late or 0) + 1
  end
end

local function problems()
  local found = {}
  for _, each in ipairs(vim.diagnostic.get(0)) do
    table.insert(found, string.format('%d:%d %s', each.lnum + 1, each.col + 1, vim.split(each.message, '\n')[1]))
  end
  return found
end

-- The cursor goes to the first place of a word in a line that has some text.
local function go(line_text, word)
  for number, line in ipairs(vim.api.nvim_buf_get_lines(0, 0, -1, false)) do
    if line:find(line_text, 1, true) then
      vim.api.nvim_win_set_cursor(0, { number, line:find(word, 1, true) - 1 })
      return
    end
  end
end

local function ask(method, more)
  local given = vim.tbl_extend('force', vim.lsp.util.make_position_params(), more or {})
  for _, answer in pairs(vim.lsp.buf_request_sync(0, 'textDocument/' .. method, given, 20000) or {}) do
    return answer.result or answer.error
  end
end

vim.cmd('edit ' .. vim.env.CHART)
wait(function() return #vim.diagnostic.get(0) > 0 end)
seen.filetype, seen.problems = vim.bo.filetype, problems()

go('-> Runing', 'Runing')
vim.cmd('normal! cwRunning')
wait(function() return #vim.diagnostic.get(0) == 0 end)
seen.mended = problems()

go('outer STROKE', 'STROKE')
seen.definition = ask('definition').range.start
seen.references = #ask('references', { context = { includeDeclaration = true } })
seen.hover = vim.split(ask('hover').contents.value, '\n')[2]
seen.outline = ask('documentSymbol')[1].name
go('-> @count', 'count')
seen.completion = ask('completion')[1].label

go('outer STROKE', 'STROKE')
local tick = vim.api.nvim_buf_get_changedtick(0)
vim.lsp.buf.rename('PULSE')
wait(function() return vim.api.nvim_buf_get_changedtick(0) > tick end)
tick = vim.api.nvim_buf_get_changedtick(0)
if vim.lsp.buf.format then
  vim.lsp.buf.format { timeout_ms = 20000 }
else
  vim.lsp.buf.formatting_sync(nil, 20000)
end
wait(function() return vim.api.nvim_buf_get_changedtick(0) > tick end)
vim.cmd('write')
seen.late = seen.late or 0
vim.fn.writefile({ vim.fn.json_encode(seen) }, vim.env.SEEN)
vim.cmd('qall!')
