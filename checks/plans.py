#!/usr/bin/env python3
# A slow second reading of the rules on blocks, plans and copies, as conditions on finished lists. Its cases have to be those of
# crates/test_plan_cases/data/plans.txt: `checks/plans.py` compares them, and `checks/plans.py print` prints them.
# `checks/plans.py figures` prints instead how often the greedy plan of a random block is longer than a shortest one.
import random, sys
import common
from itertools import combinations
MD = 32
class I:
    def __init__(s, text, reads=(), writes=(), mem=None, store=False, load=False, kind='plain', target=None, always=False):
        s.text=text; s.reads={r for r in reads if r!=0}; s.writes={w for w in writes if w!=0}
        s.mem=mem; s.store=store; s.load=load; s.kind=kind; s.target=target; s.always=always
def independent(x,y,inp):
    if x.writes & (y.reads|y.writes) or y.writes & x.reads: return False
    if x.mem and y.mem and (x.store or y.store or inp):
        return x.mem[0]==y.mem[0] and x.mem[1]!=y.mem[1]
    return True
def feeds(x,y): return x.load and bool(x.writes & y.reads)
def leaders(insts, labelled):
    out=[]; gap=0
    for i in range(len(insts)):
        if i==0 or i in labelled or insts[i-1].kind in('branch','call','jump','halt') or gap==63: gap=0
        else: gap+=1
        if gap==0: out.append(i)
    return out
class Block: pass
def blocks(insts, labelled, inp):
    ls=leaders(insts,labelled); out=[]
    for n,l in enumerate(ls):
        e=ls[n+1] if n+1<len(ls) else len(insts)
        b=Block(); b.first=l; b.insts=insts[l:e]; b.input=inp
        k=b.insts[-1].kind; b.end=k if k in('branch','call','jump','halt') else 'falls'
        b.body=len(b.insts) if b.end=='falls' else len(b.insts)-1
        out.append(b)
    return out
def edges(b):
    n=len(b.insts)
    return {(x,y) for x in range(n) for y in range(x+1,n) if not independent(b.insts[x],b.insts[y],b.input)}
def heights(b,E):
    n=len(b.insts); h=[0]*n
    for x in reversed(range(n)):
        h[x]=max([0]+[(2 if feeds(b.insts[x],b.insts[y]) else 1)+h[y] for y in range(x+1,n) if (x,y) in E])
    return h
def ready(b,E,before,x):
    if any((y,x) in E and y not in before for y in range(len(b.insts))): return False
    return not (before and before[-1] is not None and feeds(b.insts[before[-1]],b.insts[x]))
def fill(b,E,h,before):
    c=[x for x in range(b.body) if x not in before and ready(b,E,before,x)]
    return min(c,key=lambda x:(-h[x],x)) if c else None
def rest(b,E,h,before):
    t=len(b.insts)-1
    s1=fill(b,E,h,before+[t]); s2=fill(b,E,h,before+[t,s1])
    return [t,s1,s2]
def may_end(b,E,h,before):
    stand=all(x in before for x in range(b.body))
    if b.end=='falls': return stand and not (before and before[-1] is not None and b.insts[before[-1]].load)
    if b.end=='halt': return stand
    t=len(b.insts)-1
    if not ready(b,E,before,t): return False
    r=rest(b,E,h,before)
    return all(x in before+r for x in range(b.body)) and not (r[2] is not None and b.insts[r[2]].load)
def greedy(b):
    E=edges(b); h=heights(b,E); before=[]
    while not may_end(b,E,h,before): before.append(fill(b,E,h,before))
    p=len(before)
    if b.end=='falls': return before,p
    if b.end=='halt': return before+[len(b.insts)-1],p
    return before+rest(b,E,h,before),p
def padded(b):
    out=[]; place=0
    for k,i in enumerate(b.insts):
        if k==b.body: place=len(out)
        out.append(k)
        if i.load: out.append(None)
        elif i.kind in('branch','call','jump'): out+= [None,None]
    if b.end=='falls': place=len(out)
    return out,place
def valid(b,plan):
    items,place=plan; n=len(b.insts); ops=[i for i in items if i is not None]
    if sorted(ops)!=list(range(n)): return False
    tail={'falls':0,'halt':1}.get(b.end,3)
    if len(items)!=place+tail: return False
    if b.end!='falls' and items[place]!=n-1: return False
    for p,q in combinations(range(len(items)),2):
        k,j=items[p],items[q]
        if k is not None and j is not None and j<k and not independent(b.insts[j],b.insts[k],b.input): return False
    for p in range(len(items)-1):
        if items[p] is not None and items[p+1] is not None and feeds(b.insts[items[p]],b.insts[items[p+1]]): return False
    if items and items[-1] is not None and b.insts[items[-1]].load: return False
    return place<=padded(b)[1]
# The number of items of a shortest valid plan: each length in turn, every item at every place from the front, and the
# conditions on the finished list. A place is only given up where what stands already breaks a condition.
def shortest(b):
    n=len(b.insts); tail={'falls':0,'halt':1}.get(b.end,3)
    def finds(items,length):
        if len(items)==length: return valid(b,(items,length-tail))
        for k in [*range(n),None]:
            if k is None:
                if items.count(None)==length-n: continue
            elif k in items: continue
            elif any(j not in items and not independent(b.insts[j],b.insts[k],b.input) for j in range(k)): continue
            elif items and items[-1] is not None and feeds(b.insts[items[-1]],b.insts[k]): continue
            if finds(items+[k],length): return True
        return False
    length=max(n,tail)
    while not finds([],length): length+=1
    return length
def backwards(b):
    items=list(reversed(range(b.body))); place=len(items)
    if b.end!='falls': items.append(len(b.insts)-1)
    if b.end in('branch','call','jump'): items+=[None,None]
    return items,place
def copies(bs,plans,starts,n):
    b=bs[n]; items,place=plans[n]; none=([None,None],0,False)
    if b.end not in('branch','call'): return none
    t=b.insts[-1]
    goal=[g for g in range(len(bs)) if bs[g].first==t.target]
    if not goal: return none
    g=goal[0]; gi,gp=plans[g]
    able=0
    while able<2 and able<gp and able<len(gi) and gi[able] is not None: able+=1
    f,s=items[place+1] is None, items[place+2] is None
    stays=b.end=='branch' and not t.always
    room=2 if f and s else (1 if s and not stays else 0)
    c=min(room,able)
    if b.end=='branch' and not(-32768<=starts[g]+c-(starts[n]+place)<=32767): c=0
    if room==1 and able and items[place+1] is not None and feeds(b.insts[items[place+1]],bs[g].insts[gi[0]]): c=0
    fr=[None,None]
    if c and room==1: fr[1]=gi[0]
    elif c: fr[0]=gi[0]; fr[1]=gi[1] if c==2 else None
    return fr,c,bool(c) and stays
def show(items): return ' '.join('-' if i is None else str(i) for i in items)
def answer(lines, insts, labelled, inp):
    bs=blocks(insts,labelled,inp); plans=[greedy(b) for b in bs]
    starts=[]; at=4096
    for p in plans: starts.append(at); at+=len(p[0])
    out=[]
    for n,b in enumerate(bs):
        pi,pp=padded(b); gi,gp=plans[n]
        if not (valid(b,(pi,pp)) and valid(b,(gi,gp))): sys.exit('FAILED: a plan is not valid: '+show(gi))
        fr,c,sq=copies(bs,plans,starts,n)
        best=str(shortest(b)) if len(b.insts)<=8 else '-'
        out.append('%d: padded %s at %d, greedy %s at %d, best %s, backwards %s, copies %s %d%s'%(b.first,show(pi),pp,show(gi),gp,best,'accepted' if valid(b,backwards(b)) else 'rejected',show(fr),c,' squash' if sq else ''))
    return ' / '.join(lines)+' => '+' | '.join(out)
# --- making sources
def R(r): return 'r%d'%r
def cmp3(op,a,b,d,md=False): return I('%s %s,%s,%s'%(op,R(a),R(b),R(d)),[a,b]+([MD] if md else []),[d]+([MD] if md else []))
def draw(rnd,labels,inp,regs):
    r=lambda:rnd.choice(regs); o=lambda:rnd.choice([256,257,258,300,255] if not inp else [254,256,257,255])
    k=rnd.randrange(100)
    if k<18: return cmp3(rnd.choice(['add','sub','and','xor']),r(),r(),r())
    if k<30:
        a,d,v=r(),r(),rnd.randrange(-9,10); return I('addi %s,#%d,%s'%(R(a),v,R(d)),[a],[d])
    if k<50:
        b,d,of=rnd.choice([0,0,0,regs[1],regs[2]]),r(),o(); return I('ld %d[%s],%s'%(of,R(b),R(d)),[b],[d],(b,of),load=True)
    if k<66:
        b,v,of=rnd.choice([0,0,0,regs[1],regs[2]]),r(),o(); return I('st %d[%s],%s'%(of,R(b),R(v)),[b,v],[],(b,of),store=True)
    if k<69:
        b,d=r(),r(); return I('mstart %s,%s'%(R(b),R(d)),[b,MD],[d,MD])
    if k<72: return cmp3(rnd.choice(['mstep','dstep']),r(),r(),r(),True)
    if k<74:
        a=r(); return I('movtos %s,md'%R(a),[a],[MD])
    if k<76:
        d=r(); return I('movfrs md,%s'%R(d),[MD],[d])
    if k<78 : return I('nop')
    if k<90:
        a,b=r(),r(); t=rnd.choice(labels); op=rnd.choice(['beq','bne','blt','bge','blo','bhs'])
        return I('%s %s,%s,%s'%(op,R(a),R(b),t[0]),[a,b],[],kind='branch',target=t[1],always=(op=='beq' and a==0 and b==0))
    if k<93:
        t=rnd.choice(labels); return I('b %s'%t[0],[],[],kind='branch',target=t[1],always=True)
    if k<95:
        t=rnd.choice(labels); d=r(); return I('call %s,%s'%(t[0],R(d)),[],[d],kind='call',target=t[1])
    if k<97:
        a=r(); return I('jr %s'%R(a),[a],[],kind='jump')
    if k<98:
        a,d=r(),r(); return I('callr %s,%s'%(R(a),R(d)),[a],[d],kind='jump')
    if k<99:
        t=rnd.choice(labels); d=r(); return I('la %s,%s'%(t[0],R(d)),[],[d])
    return I('halt',kind='halt')
def case(rnd,n,inp,nl,regs):
    at=sorted(rnd.sample(range(n+1),min(nl,n+1))); labels=[('L%d'%i,i) for i in at]
    insts=[draw(rnd,labels,inp,regs) for _ in range(n)]
    lines=['.input'] if inp else []
    for i,x in enumerate(insts):
        if i in at: lines.append('L%d:'%i)
        lines.append(x.text)
    if n in at: lines.append('L%d:'%n)
    return answer(lines,insts,set(at),inp)
def figures(count=1000):
    rnd=random.Random(8); drawn=[]
    while len(drawn)<count:
        labels=[('L0',0)]; n=rnd.randrange(8,40)
        insts=[draw(rnd,labels,False,[0,1,2,3,4,5]) for _ in range(n)]
        drawn+=[b for b in blocks(insts,{0},False) if 2<=len(b.insts)<=8]
    drawn=drawn[:count]; by={}; pad=list_=best=0
    for b in drawn:
        g,s=len(greedy(b)[0]),shortest(b); pad+=len(padded(b)[0]); list_+=g; best+=s
        by[g-s]=by.get(g-s,0)+1
    print('%d blocks of 2 to 8 statements, %d statements'%(count,sum(len(b.insts) for b in drawn)))
    for d in sorted(by): print('longer by %d: %d'%(d,by[d]))
    print('padded %d\nlist %d\nbest %d'%(pad,list_,best))
if sys.argv[1:]==['figures']: figures(); sys.exit()
if sys.argv[1:] not in ([],['print']): common.wrong_arguments('unexpected argument '+sys.argv[1])
def lit(*xs): return xs
rnd=random.Random(20261127)
out=[]
# the worked sources
A=lambda a,v,d: I('addi %s,#%d,%s'%(R(a),v,R(d)),[a],[d])
L=lambda o,b,d: I('ld %d[%s],%s'%(o,R(b),R(d)),[b],[d],(b,o),load=True)
S=lambda o,b,v: I('st %d[%s],%s'%(o,R(b),R(v)),[b,v],[],(b,o),store=True)
H=lambda: I('halt',kind='halt')
Bc=lambda op,a,b,l,t: I('%s %s,%s,%s'%(op,R(a),R(b),l),[a,b],[],kind='branch',target=t,always=(op=='beq' and a==0 and b==0))
def worked(insts,labels,inp=False,tail=()):
    lines=['.input'] if inp else []
    for i,x in enumerate(insts):
        lines+= ['%s:'%l for l,t in labels if t==i]; lines.append(x.text)
    lines+=['%s:'%l for l,t in labels if t==len(insts)]+list(tail)
    return answer(lines,insts,{t for l,t in labels},inp)
out.append(worked([L(256,0,1),A(1,1,1),H()],[]))
out.append(worked([L(256,0,1),A(1,1,1),A(0,5,2),H()],[]))
out.append(worked([A(0,51,1),A(0,48,2),S(255,0,1),A(1,-1,1),Bc('bne',1,2,'L',2),H()],[('L',2)]))
out.append(worked([I('call f,r31',[],[31],kind='call',target=2),H(),S(256,0,31),L(256,0,2),I('jr r2',[2],[],kind='jump')],[('f',2)]))
out.append(worked([A(0,260,1),L(0,1,2),A(1,1,1),Bc('beq',2,0,'done',6),S(255,0,2),I('b next',[],[],kind='branch',target=1,always=True),H()],[('next',1),('done',6)]))
out.append(worked([L(254,0,1),A(0,-1,2),Bc('beq',1,2,'done',5),S(255,0,1),I('b next',[],[],kind='branch',target=0,always=True),H()],[('next',0),('done',5)],True))
out.append(worked([A(0,1,2),L(256,0,1),H()],[('x',2)]))
# blocks of exactly 64 statements, and one more
for n in (64,65): out.append(worked([L(256+i%3,0,1+i%7) if i%4==0 else A(1+i%5,i,1+i%7) for i in range(n)],[]))
out.append(worked([L(256+i,0,1+i%31) for i in range(64)],[]))
# eight instructions in any order, and eight loads, of which none may stand last
for end in ([],[H()]):
    m=8-len(end)
    out.append(worked([A(0,i,1+i) for i in range(m)]+end,[]))
    out.append(worked([L(256+i,0,1+i) for i in range(m)]+end,[]))
out.append(worked([A(0,i,1+i) for i in range(7)]+[Bc('bne',30,29,'L',0)],[('L',0)]))
out.append(worked([L(256+i,0,1+i) for i in range(7)]+[Bc('bne',30,29,'L',0)],[('L',0)]))
for c in range(300):
    inp=rnd.random()<.2
    out.append(case(rnd,rnd.randrange(1,15),inp,rnd.randrange(1,4),[0,1,2,3,4,5][:rnd.choice([4,6])]))
for c in range(20):
    out.append(case(rnd,rnd.randrange(20,40),False,1,[0,1,2,3,4,5,6,7]))
if sys.argv[1:]: print('\n'.join(out)); sys.exit()
with open(common.TOP+'/crates/test_plan_cases/data/plans.txt',encoding='ascii') as text: kept=text.read().splitlines()
for n in range(max(len(out),len(kept))):
    if out[n:n+1]!=kept[n:n+1]: common.tell('line %d of plans.txt'%(n+1),False,out[n:n+1])
sys.exit(common.finish('plan cases','sources with all their plans',min(len(out),len(kept))))
