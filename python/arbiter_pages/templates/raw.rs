//! The calls of `arbiter.h`, on slices. Made from {{ source }}; a test compares them.
//!
//! Each call has what the header asks: lengths that are those of the slices, pointers that are not null (a slice has none), and no
//! memory that is written and read at once (a `&mut` overlaps nothing).
use crate::Host;

pub(crate) const NO_PARENT: u32 = u32::MAX;
pub(crate) const NO_LIMIT: u64 = u64::MAX;
pub(crate) const NO_GOAL: u64 = u64::MAX;
pub(crate) const NAME_ROOM: usize = 17;

extern "C" {
{% for call in calls %}
{{ call | extern_line }}
{% endfor %}
}
{% for record in records %}

/// {{ record.about }}
pub(crate) struct {{ record.name }} {
{% for word in record.fields %}
    pub(crate) {{ word.name }}: {% if word.is_column %}Vec<{{ word | kind }}>{% else %}{{ word | kind }}{% endif %},
{% endfor %}
}
{% if record is room %}

impl {{ record.name }} {
    /// Columns of so many zeros.
    pub(crate) fn room(count: usize) -> {{ record.name }} {
        {{ record.name }} {
{% for word in record.fields %}
            {{ word.name }}: vec![0; count],
{% endfor %}
        }
    }
}
{% endif %}
{% endfor %}
{% for call in calls %}

{{ call | wrapper }}
{% endfor %}
