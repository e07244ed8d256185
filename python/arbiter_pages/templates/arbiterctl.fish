{{ remark }}

{% for each in subcommands %}
complete -c arbiterctl -n __fish_use_subcommand -f -a {{ each.name }} -d {{ each.summary | fish_text }}
{% endfor %}
{% for word in main %}
complete -c arbiterctl -n __fish_use_subcommand {{ word | fish_option }}
{% endfor %}
{% for each in subcommands %}

{% for word in each | options %}
complete -c arbiterctl -n '__fish_seen_subcommand_from {{ each.name }}' {{ word | fish_option }}
{% endfor %}
{% endfor %}
