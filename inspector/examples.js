// The reports of examples/, so that the page has them without a server. `node inspector/tests/examples.js` writes this file.
(globalThis.fabric ??= {}).examples = [
{ name: "empty-tree", report: String.raw`report 1
surface 1
commit 1 js 0 complete held 0
actor js
step 0 on 1 admitted 1 tries 1
step 1 on 1 mounted 0 1
step 2 on 1 empty 1
mounts 1
transaction 0 1 by js 1
views 1
end
` },
{ name: "first-path", report: String.raw`report 1
surface 1
commit 1 js 0 complete held 0
actor js
step 0 on 1 admitted 1 tries 1
step 1 on 1 mounted 0 1
mounts 1
transaction 0 1 by js 1
create 3 view frame 15 15 10 10 left=5 top=5 width=10 height=10 background=4278190080
insert 0 3 0
views 1
view 3 in 0 at 0 view frame 15 15 10 10 left=5 top=5 width=10 height=10 background=4278190080
end
` },
{ name: "mounting-suspended", report: String.raw`report 1
surface 1
commit 1 ui 0 complete held 0
commit 2 ui 2 suspend held 1
commit 3 ui 3 props held 2
commit 4 ui 5 resume held 3
actor ui
step 0 on 1 admitted 1 tries 1
step 1 on 1 mounted 0 1
step 2 on 1 admitted 2 tries 1
step 3 on 1 admitted 3 tries 1
step 4 on 1 empty 1
step 5 on 1 admitted 4 tries 1
step 6 on 1 mounted 1 4
mounts 1
transaction 0 1 by ui 1
create 2 text frame 0 0 10 10 width=10 height=10
create 3 view frame 0 0 20 20 width=20 height=20 z=1
insert 0 2 0
insert 0 3 1
transaction 1 4 by ui 6
remove 0 3 1
remove 0 2 0
update 3 view frame 0 0 20 20 width=20 height=20 z=-1
insert 0 3 0
insert 0 2 1
views 1
view 3 in 0 at 0 view frame 0 0 20 20 width=20 height=20 z=-1
view 2 in 0 at 1 text frame 0 0 10 10 width=10 height=10
end
` },
{ name: "overtaken", report: String.raw`report 1
surface 1
commit 1 js 0 complete held 0
commit 2 scroll-a 0 state held 0
commit 3 scroll-b 0 state held 0
surface 2
commit 1 js 1 complete held 0
actor js
step 0 on 1 admitted 1 tries 1
step 1 on 2 admitted 1 tries 1
actor scroll-a
step 0 on 1 admitted 2 tries 1
actor scroll-b
step 0 on 1 admitted 3 tries 2
actor ui
step 0 on 1 mounted 0 3
step 1 on 2 mounted 0 1
step 2 on 1 empty 3
mounts 1
transaction 0 3 by ui 0
create 2 scroll frame 0 0 320 480 state 2 0 20 width=320 height=480
insert 0 2 0
views 1
view 2 in 0 at 0 scroll frame 0 0 320 480 state 2 0 20 width=320 height=480
mounts 2
transaction 0 1 by ui 1
create 2 text frame 0 0 0 0 label=6f746865722073757266616365
insert 0 2 0
views 2
view 2 in 0 at 0 text frame 0 0 0 0 label=6f746865722073757266616365
end
` },
{ name: "reordered-tabs", report: String.raw`report 1
surface 1
commit 1 js 0 complete held 0
commit 2 js 2 complete held 1
actor js
step 0 on 1 admitted 1 tries 1
step 1 on 1 mounted 0 1
step 2 on 1 admitted 2 tries 1
step 3 on 1 mounted 1 2
mounts 1
transaction 0 1 by js 1
create 2 view frame 0 0 100 40 left=0 top=0 width=100 height=40 background=4294901762
create 3 view frame 0 40 100 40 left=0 top=40 width=100 height=40 background=4294901763
create 4 view frame 0 80 100 40 left=0 top=80 width=100 height=40 background=4294901764
create 5 view frame 0 120 100 40 left=0 top=120 width=100 height=40 background=4294901765
insert 0 2 0
insert 0 3 1
insert 0 4 2
insert 0 5 3
transaction 1 2 by js 3
remove 0 5 3
remove 0 4 2
remove 0 3 1
update 5 view frame 0 40 100 40 left=0 top=40 width=100 height=40 background=4294901765
update 3 view frame 0 80 100 40 left=0 top=80 width=100 height=40 background=4294901763
update 4 view frame 0 120 100 40 left=0 top=120 width=100 height=40 background=4294901764
insert 0 5 1
insert 0 3 2
insert 0 4 3
views 1
view 2 in 0 at 0 view frame 0 0 100 40 left=0 top=0 width=100 height=40 background=4294901762
view 5 in 0 at 1 view frame 0 40 100 40 left=0 top=40 width=100 height=40 background=4294901765
view 3 in 0 at 2 view frame 0 80 100 40 left=0 top=80 width=100 height=40 background=4294901763
view 4 in 0 at 3 view frame 0 120 100 40 left=0 top=120 width=100 height=40 background=4294901764
end
` },
{ name: "scrolled-list", report: String.raw`report 1
surface 1
commit 1 js 0 complete held 0
commit 2 js 2 complete held 1
actor js
step 0 on 1 admitted 1 tries 1
step 1 on 1 mounted 0 1
step 2 on 1 admitted 2 tries 1
step 3 on 1 mounted 1 2
mounts 1
transaction 0 1 by js 1
create 10 view frame 0 0 320 78 left=0 top=0 width=320 height=78 background=4278190080
create 11 view frame 0 80 320 78 left=0 top=80 width=320 height=78 background=4278190096
create 12 view frame 0 160 320 78 left=0 top=160 width=320 height=78 background=4278190112
create 13 view frame 0 240 320 78 left=0 top=240 width=320 height=78 background=4278190128
create 14 view frame 0 320 320 78 left=0 top=320 width=320 height=78 background=4278190144
insert 0 10 0
insert 0 11 1
insert 0 12 2
insert 0 13 3
insert 0 14 4
transaction 1 2 by js 3
update 10 view frame 0 -80 320 78 left=0 top=0 width=320 height=78 background=4278190080
update 11 view frame 0 0 320 78 left=0 top=80 width=320 height=78 background=4278190096
update 12 view frame 0 80 320 78 left=0 top=160 width=320 height=78 background=4278190112
update 13 view frame 0 160 320 78 left=0 top=240 width=320 height=78 background=4278190128
update 14 view frame 0 240 320 78 left=0 top=320 width=320 height=78 background=4278190144
views 1
view 10 in 0 at 0 view frame 0 -80 320 78 left=0 top=0 width=320 height=78 background=4278190080
view 11 in 0 at 1 view frame 0 0 320 78 left=0 top=80 width=320 height=78 background=4278190096
view 12 in 0 at 2 view frame 0 80 320 78 left=0 top=160 width=320 height=78 background=4278190112
view 13 in 0 at 3 view frame 0 160 320 78 left=0 top=240 width=320 height=78 background=4278190128
view 14 in 0 at 4 view frame 0 240 320 78 left=0 top=320 width=320 height=78 background=4278190144
end
` },
{ name: "state-carried-over", report: String.raw`report 1
surface 1
commit 1 js 0 complete held 0
commit 2 js 2 state held 1
commit 3 js 3 complete held 2
commit 4 js 5 props held 3
actor js
step 0 on 1 admitted 1 tries 1
step 1 on 1 mounted 0 1
step 2 on 1 admitted 2 tries 1
step 3 on 1 admitted 3 tries 1
step 4 on 1 cancelled 3 tries 1 cause 10 Stale 2 1
step 5 on 1 admitted 4 tries 1
step 6 on 1 mounted 1 4
mounts 1
transaction 0 1 by js 1
create 2 scroll frame 0 0 320 400 state 0 0 0 width=320 height=400 label=6c697374
create 3 text frame 0 0 320 40 width=320 height=40
insert 0 2 0
insert 2 3 0
transaction 1 4 by js 6
create 4 text frame 0 0 320 40 width=320 height=40 label=6e6577
update 2 scroll frame 0 0 320 400 state 1 0 120 width=320 height=400 label=6c697374
update 3 text frame 0 40 320 40 top=40 width=320 height=40
insert 2 4 1
views 1
view 2 in 0 at 0 scroll frame 0 0 320 400 state 1 0 120 width=320 height=400 label=6c697374
view 3 in 2 at 0 text frame 0 40 320 40 top=40 width=320 height=40
view 4 in 2 at 1 text frame 0 0 320 40 width=320 height=40 label=6e6577
end
` },
];
