# shellcheck shell=sh disable=SC2034,SC2154,SC2016,SC1091
# Puts this script, what it needs and the kept program below a folder, as /usr/local or ~/.local: bin/grinc is the command. What is
# installed looks at no sources, so it is the same program until it is installed again.

install_in() {
    lib=$1/lib/grinc share=$1/share
    vim=$share/vim/vimfiles
    mkdir -p "$1/bin" "$lib/.grinc" "$lib/docs" "$share/man/man1" "$share/bash-completion/completions" \
        "$vim/syntax" "$vim/ftdetect" "$share/emacs/site-lisp" || return 1
    rm -f "$lib/.grinc/grinc" "$lib/.grinc/unproved"
    cp "$kept" "$lib/.grinc/" && { [ ! -f "$kept.version" ] || cp "$kept.version" "$lib/.grinc/"; } &&
        cp "$top/grinc" "$lib/" && rm -rf "$lib/wrapper" && cp -r "$top/wrapper" "$lib/" &&
        rm -f "$lib/wrapper/check" "$lib/wrapper/look" "$lib/wrapper/native" &&
        cp "$top/docs/commands.md" "$top/docs/help.txt" "$top/docs/rules.txt" "$lib/docs/" &&
        ln -sf ../lib/grinc/grinc "$1/bin/grinc" &&
        manual >"$share/man/man1/grinc.1" &&
        awk -f "$top/wrapper/completion.awk" <"$top/docs/help.txt" >"$share/bash-completion/completions/grinc" &&
        cp "$top/wrapper/editors/core.vim" "$vim/syntax/" &&
        printf 'autocmd BufRead,BufNewFile *.core setfiletype core\n' >"$vim/ftdetect/core.vim" &&
        cp "$top/wrapper/editors/core-mode.el" "$share/emacs/site-lisp/" || return 1
    say "${unproved:+unproved: }installed below $1; the command is $1/bin/grinc"
    case :$PATH: in
        *":$1/bin:"*) ;;
        *) say "$1/bin isn't on the path" ;;
    esac
}
