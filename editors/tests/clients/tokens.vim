" The tokens of the file that is open, as the grammar for Vim has them: line, column, length and group.
function! Tokens(into)
  let rows = []
  for line in range(1, line('$'))
    let [column, text] = [1, getline(line)]
    while column <= len(text)
      let group = synIDattr(synID(line, column, 1), 'name')
      let from = column
      while column <= len(text) && synIDattr(synID(line, column, 1), 'name') ==# group && (group ==# 'lgp30Comment' || text[column - 1] !~# '\s' || text[from - 1] =~# '\s')
        let column += 1
      endwhile
      if text[from - 1] !~# '\s' && group !=# ''
        call add(rows, line . ' ' . (from - 1) . ' ' . (column - from) . ' ' . group)
      endif
    endwhile
  endfor
  call writefile(rows, a:into)
endfunction
