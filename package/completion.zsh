#compdef colfind colfind-show colfind-files colfind-tailor colfind-mail colfind-concordance
# Completion for zsh.

local -a weights search show
weights=(
  '--table=[the table of weights]:table:_files'
  '--tailor=[a second table, whose rows replace those of the first or are added]:tailor:_files'
  '--strength=[how many weights count]:strength:((1\:"letters" 2\:"accents too" 3\:"case and variants too"))'
  '--variable=[whether blanks and punctuation count]:weighting:(shifted non-ignorable)'
)
search=(
  $weights
  '--output=[what is printed]:output:(ranges count marks)'
  '--select=[which matches]:selection:(all chain)'
)
show=(
  '(-n --line-number)'{-n,--line-number}'[print the number of each line]'
  '--mark=[how matches are marked]:mark:(brackets colour none)'
  '(-h --help)'{-h,--help}'[print the words]'
  '--version[print the version]'
)
case $service in
  colfind)
    _arguments $search '1:pattern:' '2:text:_files' ;;
  colfind-show)
    _arguments $show '(-H --with-name)'{-H,--with-name}'[print the name of the file]' \
      '--pipefail[give status 0 also where no line was printed]' '1:text:_files' ;;
  colfind-files)
    _arguments $search $show '--show[print the lines that have matches]' '--no-name[print no name]' \
      '(-Z --null)'{-Z,--null}'[print a zero byte behind the name]' '--from0[take the names from standard input]' \
      '(-j --jobs)'{-j,--jobs=}'[search so many files at the same time]:number:' '1:pattern:' '*:text:_files' ;;
  colfind-mail)
    _arguments $weights '(-l --ids)'{-l,--ids}'[print the message ids alone]' \
      '--mutt[print the commands by which mutt limits its index]' '(-h --help)'{-h,--help}'[print the words]' \
      '--version[print the version]' \
      '1:pattern:' '*:mailbox:_files' ;;
  colfind-concordance)
    _arguments $weights '--sort=[the order]:order:(text left right)' '--forms[print each form, and how often it was found]' \
      '--format=[the form of the output]:format:(text tsv json)' '--width=[columns of a line]:number:' \
      '--from0[take the names from standard input]' '(-h --help)'{-h,--help}'[print the words]' '--version[print the version]' \
      '1:pattern:' '*:text:_files' ;;
  colfind-tailor)
    _arguments '(-h --help)'{-h,--help}'[print the words]' '--version[print the version]' '1:table:_files' '*:rule:' ;;
esac
