# Puts links to the command, its page and its completions below a folder, where
# shells and man look for them. The script `owl` sources it.
# shellcheck shell=bash disable=SC2154 # the script sets top

# link FROM TO: a link to a file of this folder. What is not its own is kept.
link() {
    local file=$1 link=$2
    if [[ $(readlink -- "$link") == "$file" ]]; then
        echo "owl: $link was there"
    elif [[ -e $link || -L $link ]]; then
        echo "owl: $link is something else, and is kept: remove it first" >&2
        kept=yes
    elif mkdir -p -- "${link%/*}" && ln -s -- "$file" "$link"; then
        echo "owl: $link leads to $file"
    else
        fail "$link can't be made"
    fi
}

install_at() {
    local folder=$1 share kept='' here
    here=$(cd -- "$top" && pwd -P) || fail "its own folder is not found"
    [[ -n $folder ]] || fail "the folder has no name"
    [[ $folder == /* ]] || folder=$PWD/$folder
    share=$folder/share
    link "$here/owl" "$folder/bin/owl"
    link "$here/man/owl.1" "$share/man/man1/owl.1"
    link "$here/completions/owl.bash" "$share/bash-completion/completions/owl"
    link "$here/completions/_owl" "$share/zsh/site-functions/_owl"
    [[ ":$PATH:" == *":$folder/bin:"* ]] ||
        echo "owl: $folder/bin is not on the PATH: put  export PATH=\"$folder/bin:\$PATH\"  into ~/.profile"
    if [[ ${SHELL-} == */zsh && ${FPATH-} != *"$share/zsh/site-functions"* ]]; then
        echo "owl: for completions put  fpath=(\"$share/zsh/site-functions\" \$fpath)  in front of compinit in ~/.zshrc"
    fi
    # The checksum of the sources is kept, so that the first call is quick.
    is_seen || see >/dev/null
    [[ -z $kept ]]
}
