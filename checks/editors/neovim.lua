-- What Neovim does in the check of the language server: it opens a file, renames, and writes all files.
-- The words behind `--` in $LSP_CHECK are the program's; $LSP_STEPS is a list of steps: path:line:column:name, or a command.
local function words(name)
  return vim.split(os.getenv(name), "\n", { trimempty = true })
end

local function fail(text)
  io.stderr:write(text .. "\n")
  vim.cmd("cquit 1")
end

local function wait(text, done)
  if not vim.wait(60000, done, 20) then
    fail("nothing came of " .. text)
  end
end

vim.opt.hidden = true
vim.opt.swapfile = false
local ready = false
local client = vim.lsp.start_client({
  name = "gorefd",
  cmd = words("LSP_CHECK"),
  root_dir = vim.fn.getcwd(),
  on_init = function()
    ready = true
  end,
})
wait("initialize", function()
  return ready
end)
-- Each Go file that is read into a buffer is one that is open, also one that a rename reads.
vim.api.nvim_create_autocmd("BufReadPost", {
  pattern = "*.go",
  callback = function(event)
    vim.lsp.buf_attach_client(event.buf, client)
  end,
})

-- All texts that the client has: those of buffers, and else those on the disk.
local function texts()
  local all = {}
  for _, path in ipairs(vim.fn.glob("**/*.go", true, true)) do
    local buffer = vim.fn.bufnr(vim.fn.getcwd() .. "/" .. path)
    local lines = buffer > 0 and vim.api.nvim_buf_is_loaded(buffer) and vim.api.nvim_buf_get_lines(buffer, 0, -1, false)
      or vim.fn.readfile(path)
    all[path] = table.concat(lines, "\n")
  end
  return all
end

local function changed(before)
  return function()
    return not vim.deep_equal(before, texts())
  end
end

for _, step in ipairs(words("LSP_STEPS")) do
  local path, line, column, name = step:match("^(.*):(%d+):(%d+):(.*)$")
  local before = texts()
  if path then
    vim.cmd("edit " .. path)
    vim.api.nvim_win_set_cursor(0, { tonumber(line), tonumber(column) - 1 })
    vim.lsp.buf.rename(name)
  else
    vim.lsp.buf.execute_command({ command = step })
  end
  wait(step, changed(before))
  vim.wait(500)
end
vim.cmd("wall")
vim.lsp.stop_client(client)
vim.cmd("qall")
