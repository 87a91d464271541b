#!/usr/bin/env python3
"""Looks for screens that break a law under each slip in the byte rules: tools/planted_screen.py [SLIP..]

RULES says in Python what crates/screen/specs (Screen, Bytes, Sequences, Output) says: each function has the name that it has there. SLIPS
changes it as planted/screen/spec_NAME.edit changes the definitions. The laws of the crate `screen`, the worked facts about bytes and the
grid's contract (here: the rules without the slip) are then tried on random screens. A law that fails on one is false, so nothing proves
it: the slip is refused. Where none fails nothing is shown, and only the prover can tell. What is found goes to planted/results.txt.
The check of this file itself: without a slip no law fails (tools/planted_screen.py none).
"""
import os
import random
import re
import sys

sys.path.insert(0, os.path.dirname(os.path.abspath(__file__)))
sys.dont_write_bytecode = True

import plant_bugs

RULES = r"""
B=None; R='R'
def width(c):
    if c<32 or 127<=c<160 or 0x300<=c<=0x36f or c==0x200d: return 0
    if 0x4e00<=c<=0x9fff: return 2
    return 1
def control_p(c): return c<32 or 127<=c<160
class D:
    def __init__(s,cols,rows): s.cols=cols; s.rows=rows; s.W=cols+5
class S:
    __slots__=('paper','row','col','join','top','held','parser')
    def __init__(s,**k):
        for a,b in k.items(): setattr(s,a,b)
def mk(s,**k):
    n=S(paper=s.paper,row=s.row,col=s.col,join=s.join,top=s.top,held=s.held,parser=s.parser)
    for a,b in k.items(): setattr(n,a,b)
    return n
def key(s): return (tuple(sorted((i,tuple(r)) for i,r in s.paper.items() if any(x is not B for x in r))),s.row,s.col,s.join,s.top,s.held,s.parser)
def prow(d,p,i): return p.get(i) or [B]*d.W
def at_(f,j): return f[j] if 0<=j<len(f) else B
def is_half(x): return x==R
def split(a,f): return [B if (is_half(at_(f,a)) and (j+1==a or j==a)) else f[j] for j in range(len(f))]
def placed(w,c,a,f):
    g=split(a+w,split(a,f))
    return [('g',c,None) if j==a else (R if (a<j and j<a+w) else g[j]) for j in range(len(f))]
def marked(m,x): return ('g',x[1],m) if isinstance(x,tuple) else x
def mark_at(m,a,f): return [marked(m,f[j]) if j==a else f[j] for j in range(len(f))]
def wipe_from(a,f):
    g=split(a,f)
    return [B if a<=j else g[j] for j in range(len(f))]
def on_row(d,r,fn,p):
    q=dict(p); q[r]=fn(prow(d,p,r)); return q
def rows_from(a,b,p): return {i:r for i,r in p.items() if not (a<=i and i<=b)}
def newline(s): return mk(s,row=s.row+1,col=0,join=None)
def carriage(s): return mk(s,col=0,join=None)
def quiet(s): return mk(s,join=None)
def takes(d,w,c,s): return mk(s,paper=on_row(d,s.row,lambda f:placed(w,c,s.col,f),s.paper),col=s.col+w,join=s.col)
def combine(d,c,s):
    if s.join is None: return s
    return mk(s,paper=on_row(d,s.row,lambda f:mark_at(c,s.join,f),s.paper),join=s.join)
def control(c,s): return newline(s) if c==10 else (carriage(s) if c==13 else quiet(s))
def put_pen(d,c,s):
    if control_p(c): return control(c,s)
    w=width(c)
    if w==0: return combine(d,c,s)
    return takes(d,w,c,newline(s) if d.cols<s.col+w else s)
def follow(d,p,s): return mk(p,top=max(s.top,max(0,p.row+1-d.rows)),held=s.held,parser='G')
def put(d,c,s): return follow(d,put_pen(d,c,s),s)
def draw(d,cs,s):
    for c in cs: s=put(d,c,s)
    return s
def blank(): return S(paper={},row=0,col=0,join=None,top=0,held=False,parser='G')
def block(d,cs):
    s=blank()
    for c in cs: s=put_pen(d,c,s)
    return s
def full(d,p): return d.cols<=p.col
def place_row(d,p): return p.row+1 if full(d,p) else p.row
def place_col(d,p): return 0 if full(d,p) else p.col
def into(m,s): return mk(s,parser=m)
def with_pen(p,s): return mk(p,top=s.top,held=s.held,parser='G')
def dropped(s): return with_pen(quiet(s),s)
def join_after(m,j):
    if m=='G': return j
    if m=='E': return None
    if m[0]=='S': return None
    return None
def escaped(s): return mk(s,join=join_after(s.parser,s.join),parser='E')
def starts(v,n,lo,hi,s): return into(('C',v,n,lo,hi),s)
def begin(d,b,s):
    if b<128: return put(d,b,s)
    if 194<=b<=223: return starts(b-192,1,128,191,s)
    if b==224: return starts(0,2,160,191,s)
    if b==237: return starts(13,2,128,159,s)
    if 225<=b<=239: return starts(b-224,2,128,191,s)
    if b==240: return starts(0,3,144,191,s)
    if 241<=b<=243: return starts(b-240,3,128,191,s)
    if b==244: return starts(4,3,128,143,s)
    return dropped(s)
def cont(d,p,b,s):
    _,v,left,lo,hi=p
    if left<2: return put(d,v*64+(b-128),s)
    return starts(v*64+(b-128),left-1,128,191,s)
def mode_byte(k): return [63,50,48,50,54][min(k,4)]
def dig(b): return 48<=b<=57
def parameter(q,b):
    k=q[0]
    if k=='bare': return ('num',b-48) if dig(b) else (('nums',0) if b==59 else (('mode',1) if b==63 else ('other',0)))
    if k=='num': return ('num',min(10*q[1]+b-48,9999)) if dig(b) else (('nums',q[1]) if b==59 else ('other',0))
    if k=='nums': return ('nums',q[1]) if dig(b) or b==59 else ('other',0)
    if k=='mode': return ('mode',q[1]+1) if q[1]<5 and b==mode_byte(q[1]) else ('other',0)
    return ('other',0)
def at(i,j,s): return with_pen(mk(s,row=i,col=j,join=None),s)
def column(d,s): return min(s.col,d.cols-1)
def bottom(d,s): return s.top+d.rows-1
def move(d,b,n,s):
    if b==65: return at(max(s.top,max(0,s.row-n)),column(d,s),s)
    if b==66: return at(min(bottom(d,s),s.row+n),column(d,s),s)
    if b==67: return at(s.row,min(d.cols-1,column(d,s)+n),s)
    if b==68: return at(s.row,max(0,column(d,s)-n),s)
    return dropped(s)
def wiped(d,s): return on_row(d,s.row,lambda f:wipe_from(column(d,s),f),s.paper)
def inked(p,s): return with_pen(mk(s,paper=p,join=None),s)
def holding(h,s): return mk(quiet(s),held=h,parser='G')
def act(d,q,b,s):
    k=q[0]
    if k=='bare':
        if b==72: return at(s.top,0,s)
        if b==74: return inked(rows_from(s.row+1,bottom(d,s),wiped(d,s)),s)
        if b==75: return inked(wiped(d,s),s)
        return move(d,b,1,s)
    if k=='num': return move(d,b,max(1,q[1]),s)
    if k=='nums': return move(d,b,max(1,q[1]),s)
    if k=='mode':
        if q[1]==5: return holding(True,s) if b==104 else (holding(False,s) if b==108 else dropped(s))
        return dropped(s)
    return dropped(s)
def finish(d,q,b,s): return into('G',s) if b==109 else act(d,q,b,s)
def step_in(d,m,b,s):
    if m=='G': return begin(d,b,s)
    if m=='E': return into(('S','bare',0),s) if b==91 else dropped(s)
    if m[0]=='S':
        if 48<=b<=63: return into(('S',)+parameter(m[1:],b),s)
        if 64<=b<=126: return finish(d,m[1:],b,s)
        return dropped(s)
    return cont(d,m,b,s) if m[3]<=b<=m[4] else begin(d,b,dropped(s))
def step(d,b,s): return escaped(s) if b==27 else step_in(d,s.parser,b,s)
def feed(d,bs,s):
    for b in bs: s=step(d,b,s)
    return s
# Sequences
def number_from(ps):
    n=0
    for b in ps:
        if not dig(b): break
        n=10*n+b-48
    return n
def distance(ps): return max(1,min(number_from(ps),9999))
def plain(ps): return all(dig(b) or b==59 for b in ps)
def commands(d,ps,f,s):
    if plain(ps) and 65<=f<=68: return move(d,f,distance(ps),s)
    if ps==[] and f==72: return at(s.top,0,s)
    if ps==[] and f==74: return inked(rows_from(s.row+1,bottom(d,s),wiped(d,s)),s)
    if ps==[] and f==75: return inked(wiped(d,s),s)
    if bytes(ps)==b'?2026' and f==104: return holding(True,s)
    if bytes(ps)==b'?2026' and f==108: return holding(False,s)
    return dropped(s)
def sequence_does(d,ps,f,s): return s if f==109 else commands(d,ps,f,s)
# Output
def move_by(b,n): return [27,91]+list(str(n).encode())+[b]
def down_by(k): return [] if k==0 else move_by(66,k)
def up_by(k): return [] if k==0 else move_by(65,k)
def rows_up(n):
    return [13,27,91,75] if n==0 else [13,27,91,75,27,91,65]+rows_up(n-1)
def erase_bytes(k,n): return down_by(k)+rows_up(n)
def closing(b): return [10] if b else []
def to_column(j): return [13] if j==0 else [13]+move_by(67,j)
def clear_bytes(): return [27,91,72,27,91,74]
def draw_bytes(d,bs,ds,es):
    return bs+closing(full(d,block(d,ds)))+up_by(max(0,place_row(d,block(d,ds))-place_row(d,block(d,es))))+to_column(place_col(d,block(d,es)))
def refresh_bytes(d,n,i,bs,ds,es): return erase_bytes(max(0,n-i),n)+draw_bytes(d,bs,ds,es)
def over(d,r,up,p):
    q={i:x for i,x in up.items() if i<r}
    for i,x in p.items(): q[i+r]=x
    return q
"""


def load(pairs):
    """The rules with a slip."""
    text = RULES
    for old, new in pairs:
        assert text.count(old) == 1, old
        text = text.replace(old, new)
    rules = {}
    exec(text, rules)
    return rules


O = load([])

CH=[97,98,32,65,0xe9,0x300,0x301,0x4e2d,0x4e2d,10,0x20ac]
def enc(c): return list(chr(c).encode('utf8','surrogatepass'))
RB=[27,91,27,91,48,49,50,59,63,65,66,67,68,72,74,75,104,108,109,10,13,7,97,98,0xcc,0x81,0xe4,0xb8,0xad,0xc3,0xa9,0xf0,0x80,0xc0,0xed,0xa0,0x90,0xf4,127,0x2f,32,57,0xe0,0xbf,0xff]
SEQ=[b'\x1b[K',b'\x1b[J',b'\x1b[H',b'\x1b[A',b'\x1b[2B',b'\x1b[C',b'\x1b[3D',b'\x1b[0A',b'\x1b[;5A',b'\x1b[1;2C',b'\x1b[?2026h',b'\x1b[?2026l',b'\x1b[m',b'\x1b[1;34m',b'\x1b\x1b[m',b'\xcc\x1b[m',b'\x1b[\x1b[m',b'\xe4\xb8\xad',b'\xcc\x81',b'\xcc\x80',b'a',b'b',b'\n',b'\r',b'\x07',b'\xc2\x85',b'\xf0\x9f\x98\x80',b'\x1b[12345C',b'\x1b[1000D',b'\x1b[?1A',b'\x1b[1J',b'\x1b7',b'\x1b[ K',b'\x1b[\n',b'\x1b[5\x7f',b'\xc3a',b'\xff',b'\x1b[0;1B',b'\x1b[;;B',b'\x1b[1;;C',b'\xe0\x80',b'\xed\xa0',b'\xf0\x80\x80',b'\xf4\x90',b'\xc0\x80',b'abcde',b'\x1b[?2027h']
SMALL=[b'\xe4\xb8\xad',b'\xe4\xb8\xad',b'a',b'\r',b'\x1b[C',b'\x1b[D',b'\x1b[K',b'\xcc\x81',b'\xcc\x80',b'\n',b'\x1b[A']
def rbytes(n):
    r=[]
    if random.random()<0.5:
        for _ in range(n): r+=list(random.choice(SMALL))
        return r
    for _ in range(n):
        if random.random()<0.75: r+=list(random.choice(SEQ))
        else: r.append(random.choice(RB))
    return r
def geo(): return (random.choice([2,3,5,5,6]),random.choice([1,2,3,4]))
def ex(bs): return repr(bytes(bs))[2:-1]
def scr(m,d,fresh=False,n=None):
    "a random screen reached by bytes"
    return m['feed'](d,rbytes(random.randrange(0,9) if n is None else n),m['blank']())
def sound(m,d):
    s=scr(m,d); s=m['feed'](d,[],s)
    return m['mk'](s,parser='G')
def styled(cs):
    bs=[]
    for c in cs:
        if random.random()<0.3: bs+=list(random.choice([b'\x1b[1m',b'\x1b[;m',b'\x1b[0;31m',b'\x1b[m']))
        bs+=enc(c)
    return bs
def chars(n): return [random.choice(CH) for _ in range(random.randrange(0,n))]
def cell(m,d,s,i,j): return m['at_'](m['prow'](d,s.paper,i),j)
def rowsof(*ss): return range(0,max([0]+[i for s in ss for i in s.paper])+3)
def eqv(m,a,b): return m['key'](a)==m['key'](b)
def kept(m,d,s):
    return s.top<=s.row<s.top+d.rows and s.col<=d.cols and all(all(x is None for x in r) for i,r in s.paper.items() if i>=s.top+d.rows)
def formed(m,d,s):
    w=m['width']
    for f in s.paper.values():
        if m['is_half'](f[0]): return False
        for j in range(len(f)):
            x=f[j]
            if j+1<len(f) and m['is_half'](f[j+1])!=(isinstance(x,tuple) and w(x[1])==2): return False
            if isinstance(x,tuple) and not (w(x[1])>0 and (x[2] is None or w(x[2])==0)): return False
            if j>=d.cols and x is not None: return False
    return True
def L_style(m):
    d=m['D'](*random.choice([geo(),geo(),(5,3000)])); s=sound(m,d); ps=list(random.choice([b'3;2',b'2000',b'',b'1',b';',b'1;34',b'0;;5']))
    if not eqv(m,m['feed'](d,[27,91]+ps+[109],s),s): return 'ESC['+bytes(ps).decode()+'m'
def L_utf(m):
    d=m['D'](*geo()); s=sound(m,d); c=random.choice(CH+[13,7,0x85,0xe000,0xd7ff,0x10ffff,0x1f600,0x7ff,0x800,0xffff,0x10000])
    if not eqv(m,m['feed'](d,enc(c),s),m['put'](d,c,s)): return 'U+%04X'%c
def fresh(m,d):
    s=sound(m,d); s=m['mk'](s,col=0,join=None,paper={i:r for i,r in s.paper.items() if i<s.row})
    return s
def L_draws(m):
    d=m['D'](*geo()); s=fresh(m,d); cs=chars(9)+random.choice([[],[13,98],[7,0x301]]); t=m['draw'](d,cs,s); b=m['block'](d,cs)
    ok=t.row==s.row+b.row and t.col==b.col and t.join==b.join and t.top==max(s.top,max(0,s.row+b.row+1-d.rows)) and t.held==s.held and t.parser=='G'
    ok=ok and all(m['prow'](d,t.paper,i)==m['prow'](d,s.paper,i) for i in range(s.row)) and all(m['prow'](d,t.paper,s.row+i)==m['prow'](d,b.paper,i) for i in rowsof(b,t))
    if not ok: return 'characters '+' '.join('%X'%c for c in cs)
def L_erases(m):
    d=m['D'](*geo()); s=sound(m,d)
    if not kept(m,d,s): return
    b=random.randrange(s.top,s.row+1); end=random.randrange(s.row,s.top+d.rows); n=end-b; k=end-s.row
    if any(any(x is not None for x in r) for i,r in s.paper.items() if i>end): return
    bs=m['erase_bytes'](k,n); t=m['feed'](d,bs,s)
    ok=t.row==b and t.col==0 and t.join is None and t.parser=='G' and t.top==s.top and t.held==s.held and all(m['prow'](d,t.paper,i)==m['prow'](d,s.paper,i) for i in range(b)) and all(all(x is None for x in r) for i,r in t.paper.items() if i>=b)
    if not ok: return 'erasing %d rows, %d below'%(n,k)
def L_feeds(m):
    d=m['D'](*geo()); s=sound(m,d); cs=chars(7); bs=styled(cs)
    if not eqv(m,m['feed'](d,bs,s),m['draw'](d,cs,s)): return ex(bs)
def L_moves(m):
    d=m['D'](*geo()); s=sound(m,d); n=random.choice([1,1,2,3])
    col=m['column'](d,s)
    for b,cond,i,j in ((65,s.top+n<=s.row,s.row-n,col),(66,s.row+n<s.top+d.rows,s.row+n,col),(67,col+n<d.cols,s.row,col+n),(68,n<=col,s.row,col-n)):
        if cond and not eqv(m,m['feed'](d,m['move_by'](b,n),s),m['at'](i,j,s)): return 'ESC[%d%c'%(n,b)
def L_refreshes(m):
    d=m['D'](*geo()); cs=chars(6); 
    blk=m['block'](d,cs); rr=random.randrange(0,3)
    if m['place_row'](d,blk)>=d.rows: return
    up={i:m['placed'](1,97,0,[None]*d.W) for i in range(rr)}
    i=random.randrange(0,m['place_row'](d,blk)+1); j=random.randrange(0,d.cols)
    top=max(0,rr+m['place_row'](d,blk)+1-d.rows)
    if top>rr: return
    s=m['S'](paper=m['over'](d,rr,up,blk.paper),row=rr+i,col=j,join=None,top=random.randrange(top,rr+1),held=random.random()<.5,parser='G')
    es=chars(4); fs=chars(4); ds=es+fs
    nb=m['block'](d,ds)
    if m['place_row'](d,nb)>=d.rows: return
    bs=m['refresh_bytes'](d,m['place_row'](d,blk),i,styled(ds),ds,es); t=m['feed'](d,bs,s)
    be=m['block'](d,es); pi=m['place_row'](d,be); pj=m['place_col'](d,be)
    if pi>m['place_row'](d,nb): return
    want=m['over'](d,rr,up,nb.paper)
    ok=t.parser=='G' and t.row==rr+pi and t.col==pj and t.top<=rr and rr+m['place_row'](d,nb)<t.top+d.rows and t.top==max(s.top,max(0,rr+m['place_row'](d,nb)+1-d.rows)) and t.held==s.held
    ok=ok and all((t.paper.get(q) or [None]*d.W)==(want.get(q) or [None]*d.W) for q in range(0,12))
    if not ok: return 'a refresh to '+' '.join('%X'%c for c in ds)
def L_inserts(m):
    d=m['D'](*geo()); cs=chars(5); b=m['block'](d,cs); c=random.choice([97,0x4e2d,0xe9])
    pr,pc=m['place_row'](d,b),m['place_col'](d,b)
    if not(pc+m['width'](c)<d.cols) or pr>=d.rows: return
    rr=random.randrange(0,2); up={0:m['placed'](1,97,0,[None]*d.W)} if rr else {}
    top=random.randrange(max(0,rr+pr+1-d.rows),rr+1) if max(0,rr+pr+1-d.rows)<=rr else None
    if top is None: return
    s=m['S'](paper=m['over'](d,rr,up,b.paper),row=rr+pr,col=pc,join=None,top=top,held=False,parser='G')
    t=m['feed'](d,enc(c),s); nb=m['block'](d,cs+[c]); want=m['over'](d,rr,up,nb.paper)
    ok=t.row==rr+m['place_row'](d,nb) and t.col==m['place_col'](d,nb) and m['place_row'](d,nb)==pr and t.top==s.top and all((t.paper.get(q) or [None]*d.W)==(want.get(q) or [None]*d.W) for q in range(0,10))
    if not ok: return 'an insert of %X behind '%c+' '.join('%X'%x for x in cs)
def L_clears(m):
    d=m['D'](*geo()); s=scr(m,d)
    if not kept(m,d,s): return
    t=m['feed'](d,m['clear_bytes'](),s)
    ok=t.row==s.top and t.col==0 and t.join is None and t.parser=='G' and t.top==s.top and t.held==s.held and all(m['prow'](d,t.paper,i)==m['prow'](d,s.paper,i) for i in range(s.top)) and all(all(x is None for x in r) for i,r in t.paper.items() if i>=s.top)
    if not ok: return 'a clear in state %r'%(s.parser,)
def L_keeps(m):
    d=m['D'](*geo()); s=m['blank'](); bs=rbytes(random.randrange(1,9))
    for k,b in enumerate(bs):
        s=m['step'](d,b,s)
        if not kept(m,d,s): return 'kept, '+ex(bs[:k+1])
        if not formed(m,d,s): return 'formed, '+ex(bs[:k+1])
def L_places(m):
    d=m['D'](*geo()); cs=chars(9); bs=styled(cs); p=m['feed'](d,bs,m['blank']())
    col=row=0
    k=0
    while k<len(cs):
        c=cs[k]; w=m['width'](c); k+=1
        if c==10: row+=1; col=0; continue
        while k<len(cs) and m['width'](cs[k])==0 and not m['control_p'](cs[k]): k+=1
        if col+w>d.cols: row+=1; col=w
        else: col+=w
    if col==d.cols: row,col=row+1,0
    if (row,col)!=(m['place_row'](d,p),m['place_col'](d,p)): return ex(bs)
def L_reads(m):
    d=m['D'](*random.choice([geo(),geo(),(5,3000)])); s=sound(m,d); ps=list(random.choice([b'3;2',b'2000',b'',b'',b'0',b'1',b'2',b';5',b'1;2',b'0;3',b'?2026',b'?2027',b'12345',b'1000',b';;',b'1;;2',b'?1',b'=',b'<',b'2;?',b'?2026;',b'?20266',b'5',b':']))
    f=random.choice([65,66,67,68,69,72,74,75,104,108,109,126,64])
    if not eqv(m,m['feed'](d,[27,91]+ps+[f],s),m['sequence_does'](d,ps,f,s)): return ex([27,91]+ps+[f])
    b=random.choice([10,13,7,32,0x2f,127,0x80,0xe4])
    if not eqv(m,m['feed'](d,[27,91]+ps+[b],s),m['dropped'](s)): return ex([27,91]+ps+[b])
def L_inside(m):
    d=m['D'](*geo()); s=m['blank'](); bs=rbytes(random.randrange(1,9))
    if s.held or s.parser!='G': return 'a blank screen is not ready'
    for k,b in enumerate(bs):
        s=m['step'](d,b,s)
        if s.join is not None and not s.join<s.col: return 'the cell last taken, '+ex(bs[:k+1])
def w_rows(m,i,bs):
    d=m['D'](5,24); s=m['feed'](d,bs,m['blank']()); return m['prow'](d,s.paper,i)[:5],s
def worked(m):
    W=enc(0x4e2d); A=enc(0x301); g=lambda c,k=None:('g',c,k); b=None; c=lambda t:list(t.encode())
    T=[('drawn',0,W,[g(0x4e2d),'R',b,b,b]),('left-taken',0,W+[13]+c('a'),[g(97),b,b,b,b]),('right-taken',0,W+[13,27]+c('[Ca'),[b,g(97),b,b,b]),
    ('both-taken',0,W+W+[13,27]+c('[C')+W,[b,g(0x4e2d),'R',b,b]),('right-erased',0,W+[13,27]+c('[C')+[27]+c('[K'),[b]*5),('last-erased',0,c('abc')+W+[27]+c('[K'),[g(97),g(98),g(99),b,b]),
    ('left_out',0,c('abcd')+W,[g(97),g(98),g(99),g(100),b]),('next_row',1,c('abcd')+W,[g(0x4e2d),'R',b,b,b]),
    ('on-wide',0,W+A,[g(0x4e2d,0x301),'R',b,b,b]),('replaced',0,[97]+enc(0x302)+A,[g(97,0x301),b,b,b,b]),('full-row',0,c('abcde')+A,[g(97),g(98),g(99),g(100),g(101,0x301)]),
    ('after-style',0,[97,27]+c('[1m')+A,[g(97,0x301),b,b,b,b]),('after-move',0,[97,27]+c('[A')+A,[g(97),b,b,b,b]),('after-torn',0,[97,204,27]+c('[m')+A,[g(97),b,b,b,b])]
    a97=[g(97),b,b,b,b]; a98=[g(98),b,b,b,b]
    T+=[('after-control',0,[97,7]+A,a97),('after-no_lead',0,[97,255]+A,a97),('after-escapes',0,[97,27,27]+c('[m')+A,a97),('after-cut',0,[97,27]+c('[')+[27]+c('[m')+A,a97),('after-erasing',0,[97,27]+c('[K')+A,a97),('after-hold',0,[97,27]+c('[?2026h')+A,a97),
    ('counts-itself',0,[195,97],a97),('two-overlong',0,[193,161,98],a98),('three-overlong',0,[224,129,129,98],a98),('four-overlong',0,[240,129,129,129,98],a98),('surrogate',0,[237,160,128,98],a98),('past-last',0,[244,144,128,128,98],a98),('behind-escape',0,[27]+c('7b'),a98)]
    for n,i,bs,want in T:
        try: told=w_rows(m,i,bs)[0]
        except (IndexError,ValueError,TypeError): return n
        if told!=want: return n
    s=w_rows(m,0,[27]+c('[9C'))[1]
    if (s.row,s.col)!=(0,4): return 'right-edge'
    d=m['D'](5,24); s=w_rows(m,1,c('abcd')+W)[1]
    if (s.row,s.col)!=(1,2): return 'cursor'
    for cs,w in (('> abc',(1,0)),('> abcd',(1,1)),('> abc\nd',(1,1))):
        p=m['block'](d,[ord(x) for x in cs])
        if (m['place_row'](d,p),m['place_col'](d,p))!=w: return 'places '+repr(cs)
def grid(m):
    d=O['D'](*geo()); s=O['blank'](); bs=rbytes(random.randrange(1,9))
    for k,b in enumerate(bs):
        t=O['step'](d,b,s)
        if O['key'](t)!=O['key'](m['step'](d,b,s)): return ex(bs[:k+1])
        s=t

LAWS = [("style", L_style), ("utf", L_utf), ("draws", L_draws), ("erases", L_erases), ("feeds", L_feeds), ("moves", L_moves), ("refreshes", L_refreshes), ("inserts", L_inserts), ("clears", L_clears), ("keeps", L_keeps), ("places", L_places), ("reads", L_reads)]


def broken_by(pairs, tries=300):
    """What fails under a slip: laws first, then worked facts, then what terminal and grid rest on."""
    rules, found = load(pairs), []

    def look(name, law, count):
        random.seed(7)
        for _ in range(count):
            try:
                told = law(rules)
            except (IndexError, ValueError, TypeError):
                told = "a number that is no character"
            if told:
                found.append(f"{name}: `{told}`")
                return

    for name, law in LAWS:
        look(f"law `{name}`", law, tries * (8 if name == "reads" else 1))
    fact = worked(rules)
    if fact:
        found.append(f"worked fact `{fact}`")
    look("`terminal`, inside", L_inside, 3 * tries)
    look("`grid`", grid, 3 * tries)
    return found


SLIPS = {
'half_is_none':[("def is_half(x): return x==R","def is_half(x): return False")],
'split_left_stays':[("(j+1==a or j==a)) else f[j]","(j==a)) else f[j]")],
'split_right_stays':[("(j+1==a or j==a)) else f[j]","(j+1==a)) else f[j]")],
'placed_one_more':[("(a<j and j<a+w)","(a<j and j<=a+w)")],
'placed_right_edge':[("g=split(a+w,split(a,f))\n    return [('g'","g=split(a,f)\n    return [('g'")],
'placed_left_edge':[("g=split(a+w,split(a,f))\n    return [('g'","g=split(a+w,f)\n    return [('g'")],
'mark_not_taken':[("('g',x[1],m) if","('g',x[1],x[2]) if")],
'mark_next_cell':[("marked(m,f[j]) if j==a","marked(m,f[j]) if j==a+1")],
'wipe_past_cursor':[("[B if a<=j else g[j]","[B if a<j else g[j]")],
'wipe_left_stays':[("g=split(a,f)\n    return [B if","g=f\n    return [B if")],
'rows_to_last':[("(a<=i and i<=b)","(a<=i and i<b)")],
'newline_column':[("row=s.row+1,col=0,join=None","row=s.row+1,join=None")],
'newline_joins':[("row=s.row+1,col=0,join=None","row=s.row+1,col=0")],
'cr_joins':[("def carriage(s): return mk(s,col=0,join=None)","def carriage(s): return mk(s,col=0)")],
'controls_join':[("def quiet(s): return mk(s,join=None)","def quiet(s): return mk(s)")],
'joins_right_half':[("col=s.col+w,join=s.col)","col=s.col+w,join=s.col+w-1)")],
'one_mark_joins':[(",s.paper),join=s.join)",",s.paper),join=None)")],
'cr_is_vt':[("carriage(s) if c==13","carriage(s) if c==11")],
'wraps_early':[("if d.cols<s.col+w else s","if d.cols<=s.col+w else s")],
'window_late':[("max(s.top,max(0,p.row+1-d.rows)),held","max(s.top,max(0,p.row-d.rows)),held")],
'window_far':[("max(s.top,max(0,p.row+1-d.rows)),held","max(s.top,max(0,p.row+2-d.rows)),held")],
'window_up':[("max(s.top,max(0,p.row+1-d.rows)),held","max(0,p.row+1-d.rows),held")],
'full_row_own':[("return p.row+1 if full(d,p) else p.row","return p.row")],
'full_row_column':[("return 0 if full(d,p) else p.col","return p.col")],
'over_one_more':[("up.items() if i<r}\n    for i,x in p.items(): q[i+r]=x","up.items() if i<=r}\n    for i,x in p.items():\n        if i+r>r: q[i+r]=x")],
'blank_held':[("top=0,held=False","top=0,held=True")],
'dropped_joins':[("with_pen(quiet(s),s)","with_pen(s,s)")],
'join_after_escape':[("if m=='E': return None\n","if m=='E': return j\n")],
'join_after_sequence':[("if m[0]=='S': return None\n","if m[0]=='S': return j\n")],
'join_after_character':[("    return None\ndef escaped","    return j\ndef escaped")],
'escape_ends_joining':[("if m=='G': return j\n","if m=='G': return None\n")],
'overlong_two':[("194<=b<=223","192<=b<=223")],
'overlong_three':[("starts(0,2,160,191,s)","starts(0,2,128,191,s)")],
'surrogates':[("starts(13,2,128,159,s)","starts(13,2,128,191,s)")],
'overlong_four':[("starts(0,3,144,191,s)","starts(0,3,128,191,s)")],
'past_last':[("starts(4,3,128,143,s)","starts(4,3,128,191,s)")],
'no_lead_joins':[("starts(4,3,128,143,s)\n    return dropped(s)","starts(4,3,128,143,s)\n    return s")],
'bounds_stay':[("left-1,128,191,s)","left-1,lo,hi,s)")],
'mode_2027':[("[63,50,48,50,54]","[63,50,48,50,55]")],
'no_first_number':[("(('nums',0) if b==59 else","(('other',0) if b==59 else")],
'number_cap':[("min(10*q[1]+b-48,9999)","min(10*q[1]+b-48,999)")],
'first_number_lost':[("(('nums',q[1]) if b==59 else ('other',0))","(('nums',0) if b==59 else ('other',0))")],
'one_semicolon':[("('nums',q[1]) if dig(b) or b==59 else","('nums',q[1]) if dig(b) else")],
'full_row_moves':[("min(s.col,d.cols-1)","min(s.col,d.cols)")],
'bottom_below':[("return s.top+d.rows-1","return s.top+d.rows")],
'up_to_paper':[("at(max(s.top,max(0,s.row-n)),","at(max(0,s.row-n),")],
'up_is_down':[("if b==65: return at(max","if b==69: return at(max")],
'right_past':[("min(d.cols-1,column(d,s)+n)","min(d.cols,column(d,s)+n)")],
'left_of_full':[("max(0,column(d,s)-n)","max(0,s.col-n)")],
'wipe_of_full':[("wipe_from(column(d,s),f)","wipe_from(s.col,f)")],
'inked_joins':[("mk(s,paper=p,join=None)","mk(s,paper=p)")],
'moves_join':[("mk(s,row=i,col=j,join=None)","mk(s,row=i,col=j)")],
'holding_joins':[("mk(quiet(s),held=h","mk(s,held=h")],
'home_of_paper':[("if b==72: return at(s.top,0,s)","if b==72: return at(0,0,s)")],
'erase_row_too':[("if b==74: return inked(rows_from(s.row+1,","if b==74: return inked(rows_from(s.row,")],
'no_number_is_zero':[("return move(d,b,1,s)","return move(d,b,0,s)")],
'zero_is_zero':[("if k=='num': return move(d,b,max(1,q[1]),s)","if k=='num': return move(d,b,q[1],s)")],
'numbers_zero':[("if k=='nums': return move(d,b,max(1,q[1]),s)","if k=='nums': return move(d,b,q[1],s)")],
'hold_by_release':[("holding(True,s) if b==104 else (holding(False,s) if b==108","holding(True,s) if b==108 else (holding(False,s) if b==104")],
'other_moves':[("        return dropped(s)\n    return dropped(s)\ndef finish","        return dropped(s)\n    return move(d,b,1,s)\ndef finish")],
'm_ends_joining':[("into('G',s) if b==109","dropped(s) if b==109")],
'escape_drops_itself':[("if b==91 else dropped(s)","if b==91 else begin(d,b,dropped(s))")],
'sequence_drops_itself':[("finish(d,m[1:],b,s)\n        return dropped(s)","finish(d,m[1:],b,s)\n        return begin(d,b,dropped(s))")],
'delete_is_final':[("64<=b<=126","64<=b<=127")],
'intermediates':[("if 48<=b<=63: return into","if 32<=b<=63: return into")],
'byte_dropped_too':[("else begin(d,b,dropped(s))\ndef step","else dropped(s)\ndef step")],
'distance_zero':[("max(1,min(number_from(ps),9999))","min(number_from(ps),9999)")],
'three_moves':[("plain(ps) and 65<=f<=68","plain(ps) and 65<=f<=67")],
'm_drops':[("return s if f==109 else","return dropped(s) if f==109 else")],
'octal_number':[("n=10*n+b-48\n","n=8*n+b-48\n")],
'erase_with_number':[("if ps==[] and f==75","if plain(ps) and f==75")],
'rows_up_stay':[("[13,27,91,75,27,91,65]+rows_up","[13,27,91,75,27,91,66]+rows_up")],
'no_closing':[("return [10] if b else []","return [] if b else []")],
'column_left':[("[13]+move_by(67,j)","[13]+move_by(68,j)")],
'clear_row':[("[27,91,72,27,91,74]","[27,91,72,27,91,75]")],
}


def main(words):
    if words == ["none"]:
        print(broken_by([]))
        return 0
    for name in words or SLIPS:
        found = broken_by(SLIPS[name])
        print(name, found, flush=True)
        results = plant_bugs.known()
        results["screen", f"spec_{name}.edit"] = ("false", "; ".join(found)) if found else ("not tried", "no screen found that breaks a law")
        plant_bugs.keep(results)
    return 0


if __name__ == "__main__":
    sys.exit(main(sys.argv[1:]))
