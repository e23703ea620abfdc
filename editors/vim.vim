" Starts `sany serve` for the folder of the first .tla file, without a plugin. What is at fault stands in the
" location list and is marked at its line; :SanyDefinition goes to where the name under the cursor is declared.

let s:command = exists('$SANY') ? [$SANY, 'serve'] : ['/path/to/sany', 'serve']

call sign_define('sany', {'text': '>>', 'texthl': 'Error'})

function s:UriOf(path) abort
  return 'file://' .. substitute(a:path, '[^A-Za-z0-9/._~-]', '\=printf("%%%02X", char2nr(submatch(0)))', 'g')
endfunction

function s:PathOf(uri) abort
  let path = substitute(a:uri, '^file://[^/]*', '', '')
  return substitute(path, '%\(\x\x\)', '\=nr2char(str2nr(submatch(1), 16))', 'g')
endfunction

function s:Text() abort
  return join(getline(1, '$'), "\n") .. "\n"
endfunction

function s:Tell(method, params) abort
  call ch_sendexpr(s:server, {'method': a:method, 'params': a:params})
endfunction

" The faults of a document.
function s:Show(channel, message) abort
  if get(a:message, 'method', '') != 'textDocument/publishDiagnostics'
    return
  endif
  let buffer = bufnr(s:PathOf(a:message.params.uri))
  if buffer < 0
    return
  endif
  call sign_unplace('sany', {'buffer': buffer})
  let found = []
  for fault in a:message.params.diagnostics
    let start = fault.range.start
    call sign_place(0, 'sany', 'sany', buffer, {'lnum': start.line + 1})
    let text = fault.code .. ' ' .. fault.message
    call add(found, {'bufnr': buffer, 'lnum': start.line + 1, 'col': start.character + 1, 'type': 'E', 'text': text})
  endfor
  for window in win_findbuf(buffer)
    call setloclist(window, found, 'r')
  endfor
endfunction

function s:Open(path) abort
  if !exists('s:server') || ch_status(s:server) != 'open'
    let job = job_start(s:command, {'in_mode': 'lsp', 'out_mode': 'lsp', 'err_io': 'null', 'out_cb': function('s:Show')})
    let s:server = job_getchannel(job)
    let params = {'processId': getpid(), 'capabilities': {}, 'rootUri': s:UriOf(fnamemodify(a:path, ':h'))}
    call ch_evalexpr(s:server, {'method': 'initialize', 'params': params}, {'timeout': 60000})
    call s:Tell('initialized', {})
  endif
  let document = {'uri': s:UriOf(a:path), 'languageId': 'tla', 'version': b:changedtick, 'text': s:Text()}
  call s:Tell('textDocument/didOpen', {'textDocument': document})
endfunction

function s:Change() abort
  let document = {'uri': s:UriOf(expand('%:p')), 'version': b:changedtick}
  call s:Tell('textDocument/didChange', {'textDocument': document, 'contentChanges': [{'text': s:Text()}]})
endfunction

function s:Close(path) abort
  call s:Tell('textDocument/didClose', {'textDocument': {'uri': s:UriOf(a:path)}})
endfunction

" The place of the cursor, in units of UTF-16.
function s:Place() abort
  let before = strpart(getline('.'), 0, col('.') - 1)
  let wide = len(filter(split(before, '\zs'), {_, char -> char2nr(char) > 0xFFFF}))
  return {'line': line('.') - 1, 'character': strchars(before) + wide}
endfunction

function s:Definition() abort
  let params = {'textDocument': {'uri': s:UriOf(expand('%:p'))}, 'position': s:Place()}
  let reply = ch_evalexpr(s:server, {'method': 'textDocument/definition', 'params': params}, {'timeout': 60000})
  if type(get(reply, 'result', v:null)) != v:t_dict
    echo 'sany: no declaration'
    return
  endif
  execute 'edit +' .. (reply.result.range.start.line + 1) fnameescape(s:PathOf(reply.result.uri))
endfunction

command SanyDefinition call s:Definition()

augroup sany
  autocmd!
  autocmd BufReadPost,BufNewFile *.tla call s:Open(expand('<afile>:p'))
  autocmd TextChanged,InsertLeave *.tla call s:Change()
  autocmd BufUnload *.tla call s:Close(expand('<afile>:p'))
augroup END
