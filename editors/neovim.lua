-- bench61499 in Neovim 0.7.2 and newer. In init.lua: dofile('/path/to/editors/neovim.lua')
-- Another command for the language server, before that: vim.g.bench61499_server = { '/path/to/clients/lsp', '--connect', ':6149' }
local top = vim.fn.fnamemodify(debug.getinfo(1, 'S').source:sub(2), ':p:h:h')
vim.opt.runtimepath:append(top .. '/editors/vim') -- colours, comments and indentation
local server = { name = 'bench61499', cmd = vim.g.bench61499_server or { top .. '/clients/lsp' }, root_dir = vim.fn.getcwd() }

if vim.lsp.config then -- Neovim 0.11
  vim.filetype.add({ extension = { fb = 'fb61499' } })
  vim.lsp.config('bench61499', { cmd = server.cmd, root_dir = server.root_dir, filetypes = { 'fb61499' } })
  vim.lsp.enable('bench61499')
  return
end

-- Before 0.9 Neovim shows no document that a server asks for, such as the differences of two texts.
if not vim.lsp.handlers['window/showDocument'] then
  server.capabilities = vim.lsp.protocol.make_client_capabilities()
  server.capabilities.window.showDocument.support = true
  server.handlers = {
    ['window/showDocument'] = function(_, shown)
      vim.cmd('sview ' .. vim.fn.fnameescape(vim.uri_to_fname(shown.uri)))
      return { success = true }
    end,
  }
end

local client
server.on_exit = function() client = nil end
vim.api.nvim_create_autocmd({ 'BufReadPost', 'BufNewFile' }, {
  pattern = '*.fb',
  callback = function(it)
    vim.bo[it.buf].filetype = 'fb61499'
    client = client or vim.lsp.start_client(server)
    vim.lsp.buf_attach_client(it.buf, client)
  end,
})
