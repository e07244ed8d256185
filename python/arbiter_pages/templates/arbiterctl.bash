{% macro reply(words) %}mapfile -t COMPREPLY < <(compgen -W "{{ words | join(" ") }}" -- "$word"){% endmacro %}
{{ remark }}

_arbiterctl() {
    local word=${COMP_WORDS[COMP_CWORD]} before=${COMP_WORDS[COMP_CWORD - 1]} given=''
    COMPREPLY=()
    # no reply: bash completes files, and what stands behind < and >
    case $before in *[\<\>]) return ;; esac
    case $word in [\<\>]*) return ;; esac
    # --unit=m is three words here
    if [[ $word == = ]]; then
        given=$before word=''
    elif [[ $before == = ]]; then
        given=${COMP_WORDS[COMP_CWORD - 2]}
    else
        given=$before
    fi
    if ((COMP_CWORD == 1)); then
        {{ reply(subcommands | map(attribute="name") | list + (main | flags)) }}
        return
    fi
    case ${COMP_WORDS[1]} in
{% for each in subcommands %}
        {{ each.name }})
            case $given in
{% for word in each | options if word.takes_value %}
                {{ word.names | join("|") }}) {{ reply(word.values) ~ " " if word.values }};;
{% endfor %}
                *)
                    [[ $word == -* ]] && {{ reply(each | options | flags) }}
                    ;;
            esac
            ;;
{% endfor %}
    esac
}

complete -o bashdefault -o default -o nosort -F _arbiterctl arbiterctl
