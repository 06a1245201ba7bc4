//! The style of a page.

/// The SHA-256 of the style, in base64, which scripts/check/html compares with it.
pub(super) const STYLE_HASH: &str = "zhvpJtoW9K7pA3DaBTdirg/+eFn4p/EKmoDZ8sX07OY=";

/// The style: the colours stand at its front, and are other ones in the dark.
pub(super) const STYLE: &str = r#"
:root{--bg:#f6f5f1;--card:#fff;--ink:#1d2126;--dim:#5d6570;--line:#dcdad2;--soft:#efede6;--acc:#1f5fbf;
--mark:#ffd75e;--markink:#1d2126;
--ok:#1d7a46;--okbg:#e2f3e8;--bad:#b3261e;--badbg:#fbe4e1;--warn:#8a5a00;--warnbg:#fdf0d0;--new:#dff2e3;
--chg:#fff3cf;--gone:#fbe4e1;
--bus:#8d9aa8;--d0:#3b7dd8;--d1:#d9822b;--d2:#2f9e7a;--d3:#a259c4;--d4:#c94f6d;--d5:#7a8b2a;--dev:#7b8794;
--mono:ui-monospace,SFMono-Regular,Menlo,Consolas,"DejaVu Sans Mono",monospace;--sans:system-ui,-apple-system,
"Segoe UI",Roboto,"DejaVu Sans",sans-serif}
@media (prefers-color-scheme:dark){:root{--bg:#131519;--card:#1b1e24;--ink:#e4e7eb;--dim:#9aa4b0;--line:#31363f;
--soft:#23272f;--acc:#86b4ff;--mark:#7a5c00;--markink:#fff6d6;
--ok:#7fd8a4;--okbg:#173524;--bad:#ff9d94;--badbg:#44201d;--warn:#f2c46a;--warnbg:#3b2f12;--new:#17351f;
--chg:#3b3212;--gone:#44201d;
--bus:#55606d;--d0:#5b9bf0;--d1:#e69a4c;--d2:#45b893;--d3:#bb7bdb;--d4:#e0708c;--d5:#9caf43;--dev:#8a96a3}}
*{box-sizing:border-box}html{scroll-padding-top:3.4rem;-webkit-text-size-adjust:100%}
body{margin:0;background:var(--bg);color:var(--ink);font:15px/1.45 var(--sans)}
a{color:var(--acc);text-decoration:none}a:hover{text-decoration:underline}:focus-visible{
outline:2px solid var(--acc);outline-offset:2px;border-radius:3px}
.skip{position:absolute;left:-99rem}.skip:focus{left:1rem;top:.5rem;z-index:9;background:var(--card);
padding:.5rem 1rem}
nav{position:sticky;top:0;z-index:5;display:flex;gap:.15rem;overflow-x:auto;padding:.45rem max(1rem,
calc(50vw - 43rem));background:var(--card);border-bottom:1px solid var(--line);scrollbar-width:thin}
nav a{padding:.2rem .6rem;border-radius:6px;font:13px/1.6 var(--mono);color:var(--ink);white-space:pre}nav a:hover{
background:var(--soft);text-decoration:none}
nav .home{font:700 13px/1.6 var(--sans);color:var(--acc);padding-left:0}nav .bad{color:var(--bad);font-weight:700}
nav .bad:before{content:"✗ "}nav .warn:before{content:"● ";color:var(--warn)}nav .dif:before{content:"± ";
color:var(--warn)}
main{max-width:88rem;margin:0 auto;padding:1.4rem 1rem 3rem}
h1{font-size:1.55rem;line-height:1.2;margin:0 0 .2rem;overflow-wrap:anywhere}h2{font-size:1.15rem;
margin:2rem 0 .7rem}h3{font-size:.98rem;margin:0}
.cmp{margin:.2rem 0;color:var(--dim)}.cmp b{color:var(--ink)}
.board{columns:19rem 3;column-gap:3rem;column-rule:3px solid var(--bus);border-left:3px solid var(--bus);
border-top:3px solid var(--bus);padding:0 0 0 1.5rem}
.tile{position:relative;break-inside:avoid;margin:0;padding-top:1.4rem}.tile>div{padding:.8rem 1rem .9rem;
background:var(--card);border:1px solid var(--line);border-radius:10px}
.tile:before{content:"";position:absolute;left:-1.5rem;top:2.8rem;width:1.5rem;border-top:3px solid var(--bus)}
.tile figcaption{margin-bottom:.6rem}.tile figcaption p{margin:0;font-size:.82rem;color:var(--dim)}.tile svg{
display:block;width:100%}.tile h3:first-letter{text-transform:uppercase}
.tile a:hover{text-decoration:none}.tile a:hover text,.tile a:focus-visible text{text-decoration:underline}
.tile[class*=" d"] h3:before{content:"";display:inline-block;width:.7em;height:.7em;margin-right:.45em;
border-radius:2px;background:var(--d)}
.d0{--d:var(--d0)}.d1{--d:var(--d1)}.d2{--d:var(--d2)}.d3{--d:var(--d3)}.d4{--d:var(--d4)}.d5{--d:var(--d5)}
svg text{font:13px var(--mono);fill:var(--ink)}svg .s{font:11.5px var(--sans)}svg .c{text-anchor:middle}
rect{fill:var(--soft);stroke:var(--line);rx:3px}.cpu{fill:var(--d,var(--dev));fill-opacity:.2;
stroke:var(--d,var(--dev))}.cpu.off{fill:none;stroke-dasharray:3 2}.mem{fill:var(--d,var(--dev));fill-opacity:.3}
.bus{fill:var(--d0);fill-opacity:.3}.dev{fill:none}.pin{stroke:none}.pin.hot{stroke:var(--acc)}
.k0,.k1,.k2,.k3,.k4{fill:var(--d1);fill-opacity:.08}.k1{fill-opacity:.2}.k2{fill-opacity:.32}.k3{fill-opacity:.46}.k4{
fill-opacity:.62}a:hover>rect,a:focus-visible>rect{stroke:var(--acc);stroke-width:2}
.card{background:var(--card);border:1px solid var(--line);border-radius:10px;padding:.2rem 1rem .4rem;
margin-top:1.2rem}.card h2{margin:.7rem 0 .3rem}h2 small{font-weight:400;font-size:.87rem;color:var(--dim);
margin-left:.4rem}
.finds{list-style:none;margin:0;padding:0}.finds li{display:grid;grid-template-columns:4.6rem 9rem 1fr auto;
gap:.2rem .8rem;align-items:baseline;padding:.42rem 0;border-top:1px solid var(--line)}.finds a{
font:13px var(--mono)}.finds small{color:var(--dim);text-align:right}
.sev,.ok,.bad,.warn,.same,.diff{font:600 12px/1.5 var(--sans);padding:.08rem .5rem;border-radius:99px;
white-space:nowrap}.bad{white-space:normal;border-radius:8px}.list td:is(:nth-child(2),:nth-child(3)){
white-space:normal;min-width:9rem}.list td:nth-child(4) code{white-space:normal;overflow-wrap:anywhere}
.list td:nth-child(4){min-width:7.5rem}nav a.warn,nav a.bad{font:13px/1.6 var(--mono);border-radius:6px}
.ok{background:var(--okbg);color:var(--ok)}.ok:before{content:"✓ "}.bad,.error .sev{background:var(--badbg);
color:var(--bad)}.bad:before{content:"✗ "}.warn,.diff,.warning .sev{background:var(--warnbg);color:var(--warn)}
.same,.note .sev{background:var(--soft);color:var(--dim)}.sev{justify-self:start}
nav a.bad,nav a.warn,nav a.dif{background:none;color:inherit;padding:.2rem .6rem;font-weight:400}nav a.bad{
color:var(--bad)}
.tools{float:right;font-weight:400}button{font:13px var(--sans);color:var(--ink);background:var(--card);
border:1px solid var(--line);border-radius:6px;padding:.25rem .7rem;cursor:pointer}
.scroll{overflow-x:auto;background:var(--card);border:1px solid var(--line);border-radius:10px}table{
border-collapse:collapse;width:100%}
.list th,.list td{padding:.38rem .8rem;text-align:left;white-space:nowrap;border-top:1px solid var(--line)}
.list thead th{border:0;white-space:normal;vertical-align:bottom;font-size:.8rem;color:var(--dim);
font-weight:600}.list td .bad{display:inline-block}
.list .num{text-align:right;font-variant-numeric:tabular-nums}.list tbody th{font:600 14px var(--mono)}
code,pre{font:13px/1.5 var(--mono);white-space:pre}
.t{contain:layout style;margin-top:1rem;background:var(--card);border:1px solid var(--line);border-radius:10px}
.t:target{border-color:var(--acc)}
summary{cursor:pointer}.th{padding:.6rem 1rem;position:relative}.th h2{display:inline;font:700 1.1rem var(--mono);
margin:0}.th .ti{margin:0 .5rem 0 .3rem}.th small{display:block;padding-left:1.05rem;color:var(--dim)}
.two{display:grid;grid-template-columns:minmax(0,1fr) auto;gap:0 1.4rem;padding:0 1rem 1rem;
border-top:1px solid var(--line)}.fs{min-width:0;padding-top:.6rem}
.fl{table-layout:fixed;font-size:14px}.fl td,.fl th{padding:.14rem .5rem;text-align:left;vertical-align:baseline;
font-weight:400;overflow-wrap:anywhere;border-bottom:1px solid var(--soft)}
.fl thead th{color:var(--dim);font-size:.78rem}.fl tr>:nth-child(1){width:3.6rem;padding-left:.2rem}
.fl tr>:nth-child(2){width:32%}.fl tr>:nth-child(3){width:34%}.fl td:first-child,.fl td:nth-child(3){
font:13px var(--mono)}.fl td:first-child a{color:var(--dim)}.fl td:nth-child(4){color:var(--dim)}
.fl td div{max-height:9rem;overflow:auto}
.s,.g{margin:.18rem 0}.s>summary,.g>summary{padding:.14rem .2rem .14rem 1.2rem;text-indent:-1rem;border-radius:4px;
font-weight:600;font-size:14px}.s>summary span{font:13px var(--mono);color:var(--dim)}.s small,.g small{
font-weight:400;font-size:12.5px;color:var(--dim);margin-left:.3rem}.s>table,.s>.s{margin-left:.9rem;
width:calc(100% - .9rem);border-left:2px solid var(--line)}.s>.s{padding-left:.4rem}.g>.s{margin-left:.9rem}
.hd>summary{font-weight:400}
.bs{position:sticky;top:2.9rem;align-self:start;max-height:calc(100vh - 3.5rem);display:flex;flex-direction:column;
min-width:0}.o{flex:none;margin:0;width:0;min-width:100%;height:2rem;padding:.55rem 0 0 .1rem;
font:12.5px var(--mono);color:var(--dim);white-space:nowrap;overflow:hidden;text-overflow:ellipsis}
.bs pre{margin:.2rem 0 0;padding:.5rem .8rem;background:var(--soft);border-radius:8px;overflow:auto;
font-size:12.5px;min-height:0}.bs pre b{font-weight:400;color:var(--dim)}.bs i{font-style:normal;cursor:pointer}
.old summary{margin-top:.5rem;font-size:13px;color:var(--dim)}.old pre{max-height:16rem}
.code pre{margin:.2rem 0;white-space:pre-wrap}.code summary{font-size:13px;color:var(--dim)}
.on,.fl .on>*,summary.on{background:var(--mark)!important;color:var(--markink)!important}.fl .on a,.fl .on>*,
.on small,.on span,.bs .on ins{color:var(--markink)!important}.bs .on ins{background:none}.bs .on{
box-shadow:0 0 0 2px var(--mark);border-radius:1px}
.fl tr:target>*{background:var(--soft)}.fl tr:target>:first-child{box-shadow:inset 3px 0 var(--acc)}
.chg>td:nth-child(3),.chg>td:nth-child(4){background:var(--chg)}tr.new>*,.s.new>summary{background:var(--new)}
tr.del>*,.s.del>summary{background:var(--gone)}.s.chg>summary{background:var(--chg)}ins{text-decoration:none;
background:var(--chg);font-weight:600}.fl ins{background:none}.s.del>table,tr.del{opacity:.85}del{color:var(--dim)}
.finding>td{border:0;padding-top:.1rem!important}.finding td:nth-child(2){width:auto!important;font-size:13px;
border-left:3px solid var(--warn);background:var(--warnbg);border-radius:0 6px 6px 0;padding:.3rem .6rem!important;
color:var(--ink)!important}.finding.error td:nth-child(2){border-color:var(--bad);background:var(--badbg)}
.finding.note td:nth-child(2){border-color:var(--dim);background:var(--soft)}.hit>summary:after{content:" ●";
color:var(--warn)}
#changed:checked~.t.same,#changed:checked~.t:not(.only) :is(.fl tr:not(.chg,.new,.del,.finding),.s:not(.chg,.new,
.del),.g:not(.chg)){display:none}#changed:checked~.t .new .fl tr,#changed:checked~.t .s.del .fl tr{
display:table-row}
@media (min-width:68.01rem){html{scroll-padding-top:7rem}tr[id]{scroll-margin-top:2.2rem}.t,#machine,#tables,
#findings{scroll-margin-top:-3.4rem}.t[id]>details[open]>.th{position:sticky;top:2.5rem;z-index:3;
background:var(--card);border-bottom:1px solid var(--line);border-radius:10px 10px 0 0}.two{border-top:0!important}
.bs{top:6.2rem!important;max-height:calc(100vh - 6.8rem)!important}}
svg a.hit rect{stroke:var(--warn);stroke-width:2.5}svg a.error rect{stroke:var(--bad)}
svg a.note rect{stroke:var(--dim)}svg a.chg rect{stroke-width:2.5;stroke-dasharray:5 2}
svg a.chg:not(.hit) rect{stroke:var(--d1)}
.wrong>*{color:var(--bad)}.bs .ch{border-bottom:2px solid var(--d1)}
footer{color:var(--dim);font-size:.85rem;margin-top:2rem}
@media (max-width:68rem){.two{grid-template-columns:minmax(0,1fr)}.bs{position:sticky;top:auto;bottom:0;
max-height:34vh;z-index:2;background:var(--card);margin:0 -1rem;padding:0 1rem .5rem;
border-top:1px solid var(--line);border-radius:0 0 10px 10px}.o{height:1.6rem;padding-top:.3rem}.old{display:none}}
@media (max-width:44rem){body{font-size:14.5px}.w{display:none}main{padding:1rem .7rem 2rem}.board{
padding:0 0 0 .8rem;border-width:2px 0 0 2px}.tile{padding-top:.9rem}.tile>div{padding:.7rem .8rem}.tile:before{
left:-.8rem;top:2.3rem;width:.8rem;border-width:2px}.finds li{grid-template-columns:auto 1fr}.finds .msg,
.finds small{grid-column:1/-1;text-align:left}.tools{float:none;display:block;margin-top:.4rem}.tools[hidden]{
display:none}
.fl,.fl tbody{display:block}.fl tr{display:grid;grid-template-columns:2.4rem minmax(0,1fr) auto;font-size:13px;
border-bottom:1px solid var(--soft)}.fl tr>:nth-child(n){width:auto;border:0;padding:.14rem .25rem}
.fl tr>:nth-child(n),.fl a{font-size:12px}.fl tr>th:nth-child(n){font-size:13px}.fl thead,.fl tr>td:empty{
display:none}.fl tr>td:nth-child(4){grid-column:2/-1;padding-top:0}.fl tr>td:nth-child(3){text-align:right;
overflow-wrap:anywhere;max-width:52vw}.finding>td:nth-child(2){grid-column:1/-1!important}.list th,.list td{
padding:.38rem .5rem}.list td:nth-child(4){min-width:6rem}.bs pre{font-size:11px;padding:.4rem}.th,.two{
padding-left:.7rem;padding-right:.7rem}.bs{
margin:0 -.7rem;padding:0 .7rem .5rem}}
@media print{:root{color-scheme:light}body{background:#fff;font-size:11px}nav,.skip,.tools,.o,footer,#changed,
#changed+label{display:none}.t,.tile>div,.scroll,.card{border-color:#bbb}.tile,.card,tr{break-inside:avoid}.fl,
.s>summary,.g>summary,.list{font-size:10.5px}.fl td:nth-child(n),.fl th:nth-child(n),.s>summary span,
.list tbody th:nth-child(n),code,small{font-size:10px!important}.list th,.list td{padding:.15rem .35rem;
white-space:normal}.scroll{overflow:visible}.th{break-after:avoid}.two{grid-template-columns:1fr}.bs{
position:static;max-height:none}.bs pre,.fl td div{overflow:visible;max-height:none}.bs pre{background:none;
border:1px solid #ddd;
font-size:9px}.board{columns:2}}
"#;
