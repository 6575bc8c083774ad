# One stage of a pipeline: empty, it takes an item, and full, it gives it on.
main := pref*[empty?;take!;full?;give!].
