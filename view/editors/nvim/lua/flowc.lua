-- Charts in Neovim by the language server flowls.
--
--   vim.opt.runtimepath:append('PATH/view/editors/vim')
--   vim.opt.runtimepath:append('PATH/view/editors/nvim')
--   require('flowc').setup()
--
-- The server is that of the same checkout, or what `command` names, as `setup { command = { 'python3', 'PATH/view/flowls' } }`.
local M = {}

local function flowls()
  local here = debug.getinfo(1, 'S').source:sub(2)
  return vim.fn.fnamemodify(vim.fn.resolve(here), ':p:h:h:h:h') .. '/flowls'
end

function M.setup(options)
  local client
  local function attach(event)
    local buffer = event and event.buf or tonumber(vim.fn.expand('<abuf>'))
    if client == nil or vim.lsp.get_client_by_id(client) == nil then
      client = vim.lsp.start_client {
        name = 'flowls',
        cmd = options and options.command or { flowls() },
        root_dir = vim.fn.getcwd(),
      }
    end
    vim.lsp.buf_attach_client(buffer, client)
  end
  vim.api.nvim_create_autocmd({ 'BufReadPost', 'BufNewFile' }, { pattern = '*.chart', callback = attach })
end

return M
