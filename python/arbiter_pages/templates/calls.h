/* The calls of arbiter.h by the checked build: see library.c. Made from {{ source }}; a test compares them. */
{% for call in calls %}

{{ call | head }}
{
    begin("{{ call.name }}");
{% for word in call.words %}
    {{ word | sent }}
{% endfor %}
    {{ call | answer }} answer = ({{ call | answer }})sent_line();
{% for word in call.words | selectattr("way", "ne", "read") %}
    {{ word | told }}
{% endfor %}
    pthread_mutex_unlock(&lock);
    return answer;
}
{% endfor %}
