//! The calls whose words are numbers and rows alone. Made from {{ source }}; a test compares them.
use crate::columns::number_of;
use crate::raw::{self, Columns};
use crate::{answered, of_rows, Fault, Host, Row};
{% for call in calls %}

{{ call | doc_lines }}
{{ call | plain }}
{% endfor %}
