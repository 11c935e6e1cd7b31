" cbrowse in vim and nvim: one session for as long as the editor runs, which gets each C file as it
" is saved. `:help cbrowse` tells what it does.

if exists('g:loaded_cbrowse')
  finish
endif
let g:loaded_cbrowse = 1
if !has('nvim') && (!has('job') || !has('channel') || !has('patch-8.2.2343'))
  echohl ErrorMsg
  echomsg 'cbrowse: this vim lacks +job and +channel, or is older than 8.2.2343; another vim or nvim has them'
  echohl None
  finish
endif

let s:options = &cpoptions
set cpoptions&vim

const s:patience = 600000 " milliseconds until a reply is given up
const s:most_bytes = 268435456
const s:most_files = 1048576
const s:most_rows = 10000
const s:most_shown = 400 " bytes of a row
let s:root = ''     " the folder of the session, with its last slash
let s:patterns = [] " the words with which it began
let s:names = {}    " the names of its files, and what each was when it was sent
let s:left_out = {} " the names of files that are not taken, and why

function! s:warn(text) abort
  echohl WarningMsg | echomsg 'cbrowse: ' .. a:text | echohl None
endfunction

function! s:program() abort
  return get(g:, 'cbrowse_program', 'cbrowse')
endfunction

" The words of a run: a subcommand, the profile, and as many files of any size as cbrowse takes.
function! s:words(subcommand) abort
  let profile = get(g:, 'cbrowse_standard', 0) ? [] : ['--wide']
  let bounds = ['--max-files', string(s:most_files), '--max-file-bytes', string(s:most_bytes)]
  return [s:program(), a:subcommand] + profile + bounds
endfunction

" ---- the session: a process that is asked and answers line by line

if has('nvim')
  " Lines come in pieces: the last one of a list goes on in the next list.
  function! s:heard(id, data, event) abort
    if !exists('s:job') || a:id != s:job
      return
    endif
    let s:heard_lines[-1] ..= a:data[0]
    call extend(s:heard_lines, a:data[1:])
  endfunction

  function! s:open(more) abort
    let s:heard_lines = ['']
    let s:job = jobstart(s:words('line') + a:more, {'on_stdout': function('s:heard')})
  endfunction

  function! s:close() abort
    call jobstop(s:job)
  endfunction

  function! s:runs() abort
    return exists('s:job') && jobwait([s:job], 0)[0] == -1
  endfunction

  function! s:send_raw(data) abort
    call chansend(s:job, a:data)
  endfunction

  function! s:read_line() abort
    call wait(s:patience, {-> len(s:heard_lines) > 1 || !s:runs()}, 1)
    return len(s:heard_lines) > 1 ? remove(s:heard_lines, 0) : ''
  endfunction
else
  function! s:open(more) abort
    let s:job = job_start(s:words('line') + a:more, {'mode': 'nl', 'drop': 'never', 'err_io': 'null'})
  endfunction

  function! s:close() abort
    call job_stop(s:job)
  endfunction

  function! s:runs() abort
    return exists('s:job') && job_status(s:job) ==# 'run'
  endfunction

  function! s:send_raw(data) abort
    call ch_sendraw(s:job, a:data)
  endfunction

  function! s:read_line() abort
    return ch_read(s:job, {'timeout': s:patience})
  endfunction
endif

function! s:stop() abort
  if exists('s:job')
    call s:close()
    unlet s:job
  endif
  let s:names = {}
  let s:left_out = {}
endfunction

" The next line that the session writes. None is empty.
function! s:line() abort
  let line = s:read_line()
  if line ==# ''
    call s:stop()
    throw 'cbrowse: the session ended; :CbrowseStart begins another one'
  endif
  return line
endfunction

" The reply to a command with its block: its first line, without the prompt and `cscope: `, and its
" rows.
function! s:ask(command, block = 0z) abort
  try
    call s:send_raw(a:command .. "\n")
    if !empty(a:block)
      call s:send_raw(a:block)
    endif
  catch /^Vim/
    call s:stop()
    throw 'cbrowse: the session ended; :CbrowseStart begins another one'
  endtry
  let first = substitute(s:line(), '^>> cscope: ', '', '')
  return [first, map(range(str2nr(first)), 's:line()')]
endfunction

" Calls a function, and tells what it throws in one line.
function! s:guarded(function, words) abort
  try
    call call(a:function, a:words)
  catch /^cbrowse: /
    call s:warn(v:exception[9:])
  endtry
endfunction

" ---- files

" The name that a file has in the session.
function! s:name_of(path) abort
  let full = fnamemodify(a:path, ':p')
  return strpart(full, 0, strlen(s:root)) ==# s:root ? strpart(full, strlen(s:root)) : ''
endfunction

" Why a name is none for cbrowse; empty where it is one.
function! s:bad_name(name) abort
  return a:name =~# '\v^[!-~]{0,253}\.[ch]$' ? '' : 'bad name'
endfunction

" Takes a file away, if the session has it.
function! s:drop(name) abort
  if has_key(s:names, a:name)
    call s:ask(':drop ' .. a:name)
    call remove(s:names, a:name)
  endif
endfunction

" Names the files whose tags may be very large. A line of n bytes has at most (n + 1) / 2 definitions.
const s:judge = join([
      \ 'function judge() { if (most > 100000000 && most > 100 * size) print file }',
      \ 'FNR == 1 { judge(); file = FILENAME; size = most = 0 }',
      \ '{ size += length() + 1; most += (length() + 1) / 2 * length() }',
      \ 'END { judge() }'])

" What a command of the shell writes in the folder of the session.
function! s:shell(command, input = []) abort
  return system('cd ' .. shellescape(s:root) .. ' && ' .. a:command .. ' 2>/dev/null', a:input)
endfunction

" Of some files those whose tags are very large. Few are counted, and none of up to 20,000 bytes. All
" of over 10,000,000 are, since the time of awk grows with the square of a line.
function! s:very_large(names) abort
  let some = filter(copy(a:names), {_, name -> s:refused(name, []) ==# ''})
  call filter(some, {_, name -> getfsize(s:root .. name) > 20000})
  if empty(some) || get(g:, 'cbrowse_all', 0)
    return []
  endif
  let huge = filter(copy(some), {_, name -> getfsize(s:root .. name) > 10000000})
  call filter(some, {_, name -> index(huge, name) < 0})
  let paths = join(map(some, {_, name -> './' .. name}), "\n") " an LF is sent as a byte 0
  let found = empty(some) ? '' : s:shell('env LC_ALL=C xargs -0 awk ' .. shellescape(s:judge), [paths])
  let judged = map(split(found, "\n"), {_, path -> path[2:]})
  return filter(huge + judged, {_, name -> s:is_very_large(name)})
endfunction

function! s:is_very_large(name) abort
  let most = max([100000000, 100 * getfsize(s:root .. a:name)])
  let words = s:words('tags') + ['-x', '--', a:name]
  let command = join(map(words, 'shellescape(v:val)')) .. ' 2>/dev/null | head -c ' .. (most + 1) .. ' | wc -c'
  return str2nr(s:shell(command)) > most
endfunction

" Why a file is left out before it is sent; empty where it is not. `large` are those with very large
" tags.
function! s:refused(name, large) abort
  if s:bad_name(a:name) !=# ''
    return 'bad name'
  elseif getfsize(s:root .. a:name) > s:most_bytes
    return 'too large'
  elseif !filereadable(s:root .. a:name)
    return 'cannot be read'
  elseif index(a:large, a:name) >= 0
    return 'tags very large (g:cbrowse_all = 1 takes them)'
  endif
  return ''
endfunction

" What a file is on disk: its time and its size. A file that was sent within the second in which it
" was written may be written again within it, so it has no stamp yet.
function! s:stamp(name) abort
  let path = s:root .. a:name
  return getftime(path) >= localtime() - 1 ? [] : [getftime(path), getfsize(path)]
endfunction

" Sends the bytes that some files have on disk.
function! s:send(names) abort
  let large = s:very_large(a:names)
  for name in a:names
    call s:send_one(name, large)
  endfor
endfunction

" Sends a file. Once the history is full a new session begins.
function! s:send_one(name, large) abort
  let why = s:refused(a:name, a:large)
  if why ==# ''
    let stamp = s:stamp(a:name)
    let bytes = readfile(s:root .. a:name, 'B')
    let word = has_key(s:names, a:name) ? ':reload' : ':load'
    let reply = s:ask(printf('%s %s %d', word, a:name, len(bytes)), bytes)[0]
    if reply ==# 'done'
      let s:names[a:name] = stamp
    elseif reply ==# 'refused: history is full'
      return s:begin(uniq(sort(keys(s:names) + [a:name])))
    else
      let why = substitute(reply, '^refused: ', '', '')
    endif
  endif
  if why !=# ''
    call s:drop(a:name)
    let s:left_out[a:name] = why
  elseif has_key(s:left_out, a:name)
    call remove(s:left_out, a:name)
  endif
endfunction

" Tells in one line which files are left out.
function! s:tell_left_out() abort
  if empty(s:left_out)
    return
  endif
  let counts = {}
  for why in values(s:left_out)
    let counts[why] = get(counts, why, 0) + 1
  endfor
  let reasons = map(sort(keys(counts)), {_, why -> counts[why] .. ' ' .. why})
  call s:warn(printf('left out: %s; :CbrowseLeftOut lists them', join(reasons, ', ')))
endfunction

" Begins a session with some files, which it reads by itself. Where it does not take one of them it
" ends, and another session gets each file that it takes.
function! s:begin(names) abort
  call s:stop()
  if !executable(s:program())
    throw 'cbrowse: ' .. s:program() .. ' is not in the path; install it, or let g:cbrowse_program name it'
  endif
  let large = s:very_large(a:names)
  for name in a:names
    let why = s:refused(name, large)
    let [found, value] = why ==# '' ? [s:names, s:stamp(name)] : [s:left_out, why]
    let found[name] = value
  endfor
  let list = tempname()
  call writefile(sort(keys(s:names)), list)
  try
    call s:open(['--files-from', list])
    call s:ask(':stack') " it answers once all are read
  catch /^cbrowse: /
    call s:open([])
    call s:send(a:names)
  finally
    call delete(list)
  endtry
endfunction

" The names of the files that the words of the session ask for.
function! s:wanted() abort
  let names = []
  for pattern in empty(s:patterns) ? ['**/*.[ch]'] : s:patterns
    for path in glob(s:absolute(pattern), 1, 1)
      if isdirectory(path)
        let names += map(glob(path .. '/**/*.[ch]', 1, 1), {_, found -> s:name_of(found)})
      else
        call add(names, s:name_of(path))
      endif
    endfor
  endfor
  return filter(uniq(sort(names)), {_, name -> name !=# '' && !isdirectory(s:root .. name)})
endfunction

" A pattern seen from the folder of the session.
function! s:absolute(pattern) abort
  return a:pattern =~# '^[/~$]' ? a:pattern : escape(s:root, '*?[{`$\') .. a:pattern
endfunction

function! s:start(patterns) abort
  let s:root = fnamemodify('.', ':p')
  let s:patterns = a:patterns
  let wanted = s:wanted()
  call s:begin(wanted)
  if empty(wanted)
    call s:warn('no C files are here; :cd to their folder, or name them after :CbrowseStart')
  elseif empty(s:left_out)
    echomsg printf('cbrowse: %d files', len(s:names))
  else
    call s:tell_left_out()
  endif
endfunction

" Drops the files that are gone, and sends those that are not as they were sent.
function! s:look_again() abort
  call s:drop_those_gone()
  call s:send(filter(keys(s:names), {_, name -> empty(s:names[name]) || s:stamp(name) !=# s:names[name]}))
endfunction

function! s:drop_those_gone() abort
  for name in filter(keys(s:names), {_, name -> !filereadable(s:root .. name)})
    call s:drop(name)
  endfor
endfunction

function! s:must_run() abort
  if exists('s:job') && !s:runs()
    call s:stop()
    throw 'cbrowse: the session ended; :CbrowseStart begins another one'
  elseif !exists('s:job')
    throw 'cbrowse: there is no session; :CbrowseStart begins one'
  endif
endfunction

function! s:refresh() abort
  call s:must_run()
  let s:left_out = {}
  call s:look_again()
  call s:send(filter(s:wanted(), {_, name -> !has_key(s:names, name)}))
  if empty(s:left_out)
    echomsg printf('cbrowse: %d files', len(s:names))
  else
    call s:tell_left_out()
  endif
endfunction

function! s:list_left_out() abort
  let names = sort(keys(s:left_out))
  let entries = map(names, {_, name -> {'filename': s:root .. name, 'lnum': 1, 'text': s:left_out[name]}})
  call setqflist([], ' ', {'title': 'cbrowse: files left out', 'items': entries})
  if empty(entries)
    call s:warn('no file is left out')
  else
    call s:show()
  endif
endfunction

" A file was written, or read again.
function! s:written(path) abort
  let name = s:name_of(a:path)
  if name ==# '' || !s:runs()
    return
  endif
  call s:send([name])
  if has_key(s:left_out, name)
    call s:warn(printf('%s is left out: %s', name, s:left_out[name]))
  endif
endfunction

function! s:focused() abort
  if s:runs()
    call s:look_again()
  endif
endfunction

" ---- questions

" The entry of the quickfix list for a row: its file, function, line and text.
function! s:entry(row) abort
  let [file, place, line, text] = matchlist(a:row, '\v^(\S+) (\S+) (\d+) (\_.*)$')[1:4]
  return {'filename': s:root .. file, 'lnum': str2nr(line), 'text': strpart(place .. ': ' .. text, 0, s:most_shown)}
endfunction

" Asks a field and lists the rows. Files that are gone are dropped before.
function! s:question(digit, pattern) abort
  call s:must_run()
  if a:pattern ==# ''
    throw 'cbrowse: there is no word under the cursor; name one after the command'
  endif
  call s:drop_those_gone()
  let [reply, rows] = s:ask(a:digit .. a:pattern)
  let total = len(rows)
  let entries = map(rows[: s:most_rows - 1], {_, row -> s:entry(row)})
  call setqflist([], ' ', {'title': 'cbrowse ' .. a:digit .. a:pattern, 'items': entries})
  if total > s:most_rows
    call s:warn(printf('the first %d of %d rows are listed', s:most_rows, total))
  endif
  if empty(entries)
    throw 'cbrowse: ' .. (reply =~# '^refused' ? substitute(reply, '^refused: ', '', '') : 'nothing is found')
  endif
  return entries
endfunction

" Shows the list, and stays where the cursor is.
function! s:show() abort
  copen
  wincmd p
endfunction

function! s:list(digit, pattern) abort
  call s:question(a:digit, a:pattern)
  call s:show()
endfunction

" Goes to the first definition in the file of the cursor, or to the first of all. A buffer with
" changes that may not be hidden keeps its window.
function! s:define(name) abort
  let here = s:root .. s:name_of(expand('%'))
  let entries = s:question('1', a:name)
  let files = map(copy(entries), {_, entry -> entry.filename})
  let place = max([0, index(files, here)])
  if &modified && !&hidden && !&confirm && !&autowrite && !&autowriteall && entries[place].filename !=# here
    split
  endif
  execute 'cc' place + 1
  if len(entries) > 1
    call s:show()
  endif
endfunction

" The word that is asked for: the one given, or the one under the cursor.
function! s:word(given) abort
  return a:given ==# '' ? expand('<cword>') : a:given
endfunction

command! -bar -nargs=* -complete=file CbrowseStart call s:guarded(function('s:start'), [[<f-args>]])
command! -bar CbrowseStop call s:stop()
command! -bar CbrowseRefresh call s:guarded(function('s:refresh'), [])
command! -bar CbrowseLeftOut call s:list_left_out()
command! -bar -nargs=? CbrowseDefine call s:guarded(function('s:define'), [s:word(<q-args>)])
command! -bar -nargs=? CbrowseCallers call s:guarded(function('s:list'), ['3', s:word(<q-args>)])
command! -bar -nargs=? CbrowseCallees call s:guarded(function('s:list'), ['2', s:word(<q-args>)])
command! -bar -nargs=? CbrowseUses call s:guarded(function('s:list'), ['0', s:word(<q-args>)])
command! -nargs=1 CbrowseText call s:guarded(function('s:list'), ['4', <q-args>])
command! -nargs=1 CbrowseIncludes call s:guarded(function('s:list'), ['8', <q-args>])

augroup cbrowse
  autocmd!
  autocmd BufWritePost,FileChangedShellPost *.c,*.h call s:guarded(function('s:written'), [expand('<afile>')])
  autocmd FocusGained * call s:guarded(function('s:focused'), [])
augroup END

let &cpoptions = s:options
unlet s:options
