" Vim syntax of the scripts of lspace. Where tools/install put it below a folder that Vim doesn't
" look at, as below ~/.local, ~/.vimrc needs: set runtimepath+=~/.local/share/vim/vimfiles
" Files named *.lspace have it; another by `:setfiletype lspace`, or a last line `# vim: ft=lspace`.
if exists('b:current_syntax')
  finish
endif
syntax case match
syntax iskeyword @,48-57,45,46,95

" The first word of a line is a command, or an error.
syntax keyword lspaceCommand contained items load-items start blocks yes no retract known ask
syntax keyword lspaceCommand contained base surmise relation skill-map states learning fringes
syntax keyword lspaceCommand contained state-of paths project project-base test skills mesh
syntax keyword lspaceCommand contained mesh-agree odds ratio limits pupil question reply report
syntax keyword lspaceCommand contained close class save open
syntax keyword lspaceCommand contained safe-open safe safe-list safe-states safe-close
syntax match lspaceName /[A-Za-z0-9_.-]\+/
syntax match lspaceNumber /\<\d\+\>/
syntax match lspaceMark /[:|]/
syntax match lspaceWord /\(\<start[ \t,]\+\)\@<=\(surmise\|base\|relation\)\>/
syntax match lspaceWord /\(\<skills[ \t,]\+\)\@<=\(any\|all\)\>/
syntax match lspaceWord /\<\(right\|wrong\)\ze[ \t,\r]*$/
syntax match lspaceWord /\(\d[ \t,]\+\)\@<=after\>/
syntax match lspaceFirst /^[ \t,]*\zs[^ \t,:|#][^ \t,:|]*/ contains=lspaceCommand
syntax match lspaceNote /^[ \t]*#.*/

highlight default link lspaceCommand Statement
highlight default link lspaceFirst Error
highlight default link lspaceName Identifier
highlight default link lspaceNumber Number
highlight default link lspaceMark Delimiter
highlight default link lspaceWord Keyword
highlight default link lspaceNote Comment
let b:current_syntax = 'lspace'
