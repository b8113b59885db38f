# The expected output of relations_test, by brute force over the 90 logs of three runs.
import itertools
NAMES=['before','after','overlaps','overlapped','includes','during']
def holds(a,b):
    (s,f),(t,g)=a,b
    h=[f<t, g<s, s<t<f<g, t<s<g<f, s<t<g<f, t<s<f<g]
    assert sum(h)==1
    return h.index(True)
single={}
logs=sorted(set(itertools.permutations([1,1,2,2,3,3])))
assert len(logs)==90
wit={}
for o in logs:
    p={i:tuple(k+1 for k,v in enumerate(o) if v==i) for i in (1,2,3)}
    a,b,c=holds(p[1],p[2]),holds(p[2],p[3]),holds(p[1],p[3])
    single[a,b]=single.get((a,b),0)|1<<c
    wit.setdefault((a,b,c),o)
def compose(a,b):
    x=0
    for (p,q),m in single.items():
        if a>>p&1 and b>>q&1: x|=m
    return x
# worked out from the inequalities, over the 90 logs of three runs
out=[]
p=out.append
def between(s,f,t,g):
    for n,h in ((1,f<t),(2,g<s),(4,s<t<f<g),(8,t<s<g<f),(16,s<t<g<f),(32,t<s<f<g)):
        if h: return n
    return 0
M=2**64-1
def bet(*q): p(f"{q[0]} {q[1]} {q[2]} {q[3]}: {between(*q)}")
p('positions')
for q in [(1,2,3,4),(3,4,1,2),(1,3,2,4),(2,4,1,3),(1,4,2,3),(2,3,1,4),(0,M-1,1,M),(0,M,1,M-1),(M-1,M,0,M-2)]: bet(*q)
p('other numbers')
for q in [(1,2,2,3),(1,3,1,4),(1,4,2,4),(1,4,1,4),(5,5,5,5),(9,1,5,2),(9,7,5,2),(4,1,3,2)]: bet(*q)
# positions about 65,535, 2^32 and 2^64 - 1 on each of the four places of each order; 2^64 - 1 beside 131,071, whose
# lowest 16 bits are the same, and beside 65,535; all four positions there; and such as differ above their lowest 16
# bits alone
ORDERS=[(1,2,3,4),(3,4,1,2),(1,3,2,4),(2,4,1,3),(1,4,2,3),(2,3,1,4)]
def wide_cases():
    for v in (65535,65536,2**32,M):
        for place in range(4):
            for q in ORDERS: yield tuple(v if k==place else n for k,n in enumerate(q))
    for place in range(4):
        for other in range(4):
            if other!=place:
                for q in ORDERS[2:]: yield tuple(M if k==place else 131071 if k==other else n for k,n in enumerate(q))
    yield from [(M,3,2,65535),(1,M,2,65535),(2,65535,M,3),(1,65535,2,M)]
    for low in (65533,65534,65535,2**32-2,M-4):
        for q in ORDERS: yield tuple(low+n for n in q)
    for q in [(0,65536,65536,131072),(65536,65536,0,0),(65536,65537,0,1),(0,1,65536,65537),(0,65537,1,65536),
              (1,65536,0,65537),(0,65536,65536,65537),(65536,65537,65537,65538),(65535,65536,65536,65537),(M,M,M,M),
              (M,0,M,0),(2**32,2**33,0,0)]: yield q
p('wide positions')
for q in dict.fromkeys(wide_cases()): bet(*q)
# each size on each place, with no other position that does not fit, tells positions from their lowest 16 bits
for v in (65536,2**32,M):
    for place in range(4):
        alone=[q for q in wide_cases() if q[place]==v and all(n<65536 for k,n in enumerate(q) if k!=place)]
        assert any(between(*q)!=between(*(n%65536 for n in q)) for q in alone), (v,place)
def comp(a,b):
    p(f"{a} {b}: "+(f"R14" if a>63 or b>63 else str(compose(a,b))))
p('single compositions')
for i in range(6):
    for j in range(6):
        assert compose(1<<i,1<<j)==single[i,j]
        comp(1<<i,1<<j)
p('worked cases')
for a,b,c in [(1,1,1),(1,2,63),(4,4,5),(1,32,37),(4,16,21),(16,32,60),(0,63,0)]:
    assert compose(a,b)==c
    comp(a,b)
p('several')
for a,b in [(0,0),(63,0),(63,63),(5,5),(20,16),(16,20),(21,21),(42,42),(17,20),(48,12)]: comp(a,b)
p('refusals')
for a,b in [(63,1),(1,63),(64,1),(1,64),(64,63),(63,64),(64,64),(255,0),(0,255)]: comp(a,b)
p('converses')
def conv(c):
    return sum({1:2,2:1,4:8,8:4,16:32,32:16}[1<<i] for i in range(6) if c>>i&1)
for c in list(range(64))+[64,255]: p(f"{c}: "+("R14" if c>63 else str(conv(c))))
def rec(log):
    runs=[];ids={}
    for n,l in enumerate(log,1):
        w=l.split()
        if w[0]=='B': ids[w[1]]=len(runs); runs.append([n,0])
        else: runs[ids[w[1]]][1]=n
    return runs
def rel(runs,a,b,bad=False):
    fin=lambda k: k<len(runs) and runs[k][1]>0
    if bad: r='R21'
    elif not(fin(a) and fin(b)): r='R22'
    elif a==b: r='R23'
    else: r=str(between(*runs[a],*runs[b]))
    p(f"{a} {b}: {r}")
p('two runs')
for log in (['B 1','E 1','B 2','E 2'],['B 1','B 2','E 1','E 2'],['B 1','B 2','E 2','E 1']):
    r=rec(log); rel(r,0,1); rel(r,1,0)
p('three runs')
r=rec(['B 7 EVENING','B 9 TEST','E 9','B 3 TEST','E 7','E 3'])
for a,b in [(0,1),(0,2),(1,2),(2,1),(2,0),(1,0)]: rel(r,a,b)
p('unfinished')
r=rec(['B 1','B 2','E 1'])
for a,b in [(0,1),(1,0),(1,1),(0,2),(2,2),(127,0),(0,127),(128,0),(0,128),(128,128),(255,0),(0,255),(255,255)]: rel(r,a,b)
rel([],0,0)
p('same')
r=rec(['B 1','B 2','E 1','E 2'])
rel(r,0,0); rel(r,1,1)
p('damaged')
for _ in range(2):
    for a,b in [(0,1),(0,0),(0,200)]: rel(r,a,b,True)
p('128 runs')
r=[[2*k+1,2*k+2] for k in range(128)]
for a,b in [(0,127),(127,0),(127,127),(127,128),(128,127)]: rel(r,a,b)
print('\n'.join(out))
