# Completes command lines of vslog in fish, 3.1 or later. It lies in a folder of fish_complete_path, under this name.

complete -c vslog -n 'test (count (commandline -opc)) = 1' -l help -d 'prints what the program does'
complete -c vslog -n 'test (count (commandline -opc)) = 1' -l version -d 'prints which version it is'
# What stands between two comments is made by tools/completion.py: nobody writes there.
# made by tools/completion.py: options
complete -c vslog -s t -d 'reads a text, as varnishlog -g raw prints it'
complete -c vslog -s w -r -F -d 'writes to OUT, which is emptied'
complete -c vslog -s a -d 'appends to OUT'
complete -c vslog -s q -d 'says nothing of what was left out'
complete -c vslog -l strict -d 'stops before the first record or line that would be left out or cut'
# made until here
