# A vending machine: a coin, which is thanked for, and then a choice.
main := pref*[coin?;ok!;(tea?;cup!|coffee?;mug!)].
