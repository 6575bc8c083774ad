# Four clients share one resource, from one definition.
let client := pref*[ask?;got!;done?;free!].
main := client[a1/ask,p1/got,d1/done,f1/free]
     || client[a2/ask,p2/got,d2/done,f2/free]
     || client[a3/ask,p3/got,d3/done,f3/free]
     || client[a4/ask,p4/got,d4/done,f4/free]
     || pref*[p1!;d1?|p2!;d2?|p3!;d3?|p4!;d4?].
