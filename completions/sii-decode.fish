# Completion of sii-decode for fish: put this file into a folder of fish_complete_path, as ~/.config/fish/completions.
# __sii_decode_wants KIND: may the next word be of this kind, question or file? By the words in front of the cursor that are no options.
function __sii_decode_wants
    set -l plain
    set -l value no
    set -l behind no
    set -l questions yes
    set -l into no
    for word in (commandline -opc)[2..]
        if test $value = yes
            set value no
        else if test $behind = yes
            set -a plain $word
        else
            switch $word
                case --
                    set behind yes
                    set -q plain[1]; or set questions no
                case -o --output --index
                    set value yes
                case --into
                    set value yes
                    set into yes
                case '--into=*'
                    set into yes
                case -
                    set -a plain $word
                case '-*'
                case '*'
                    set -a plain $word
            end
        end
    end
    # where the save stands, and of a question that has one more word or not, or an index, the file in front of it
    set -l save 0
    set -l first 0
    if test $questions = yes
        switch "$plain[1]"
            case info forecast prototypes index
                set save 1
            case prototype block fields
                set save 2
            case blocks check
                set save 2
                set first 1
            case field
                set save 3
        end
    end
    switch $argv[1]
        case question
            test $into = no -a $questions = yes -a (count $plain) -eq 0
        case file
            # behind --into every word is a save
            test $into = yes -o (count $plain) -eq $save -o \( $first -eq 1 -a (count $plain) -eq 1 \)
    end
end
complete -c sii-decode -f
complete -c sii-decode -n '__sii_decode_wants file' -F
complete -c sii-decode -s o -l output -r -F -d 'Write to a file, whole or not at all'
complete -c sii-decode -l index -r -F -d 'Find the field by this index'
complete -c sii-decode -l into -x -a '(__fish_complete_directories (string replace -r "^--into=" "" -- (commandline -ct)))' -d 'Write the text of each save into a folder'
complete -c sii-decode -s h -l help -d 'Print a summary'
complete -c sii-decode -s V -l version -d 'Print the version'
complete -c sii-decode -n '__sii_decode_wants question' -a info -d 'Prototypes, blocks, bytes'
complete -c sii-decode -n '__sii_decode_wants question' -a forecast -d 'What converting the save takes'
complete -c sii-decode -n '__sii_decode_wants question' -a prototypes -d 'The prototypes of the blocks'
complete -c sii-decode -n '__sii_decode_wants question' -a prototype -d 'A prototype by its id'
complete -c sii-decode -n '__sii_decode_wants question' -a blocks -d 'All blocks, or those under a prototype name'
complete -c sii-decode -n '__sii_decode_wants question' -a block -d 'A block by its number'
complete -c sii-decode -n '__sii_decode_wants question' -a fields -d 'The fields of a block'
complete -c sii-decode -n '__sii_decode_wants question' -a field -d 'A field of a block'
complete -c sii-decode -n '__sii_decode_wants question' -a index -d 'An index of the save'
complete -c sii-decode -n '__sii_decode_wants question' -a check -d 'Whether an index is that of the save'
