-- Joins Neovim (0.7 or later) to the language server. Set it up by a line of init.lua: dofile('CHECKOUT/companion/editors/nvim/pat.lua')
local here = vim.fn.fnamemodify(vim.fn.resolve(debug.getinfo(1, 'S').source:sub(2)), ':p:h')
local server = vim.fn.fnamemodify(here .. '/../../server.js', ':p')
vim.opt.runtimepath:append(here)
vim.api.nvim_create_autocmd({ 'BufRead', 'BufNewFile' }, { pattern = '*.pat', command = 'setfiletype pat' })

local started = nil
local function join(buffer)
  local options = { name = 'pat', cmd = { 'node', server }, root_dir = vim.fn.getcwd() }
  if vim.lsp.start then return vim.lsp.start(options) end
  started = started or vim.lsp.start_client(options)
  vim.lsp.buf_attach_client(buffer, started)
end

vim.api.nvim_create_autocmd('FileType', {
  pattern = 'pat',
  callback = function(event)
    vim.bo[event.buf].commentstring = '// %s'
    join(event.buf)
  end,
})
