#!/usr/bin/env python3
# SPDX-License-Identifier: MIT OR Apache-2.0
"""convert.py NAMES LANDED CRATE..: turns proofs/F/Proof.antt of the tie form into Invariants.antt and Answers.antt."""
import json, os, re, sys, glob, collections
NAMES, LANDED = sys.argv[1:3]
norm = lambda s: s.replace('_', '-')
stats = collections.Counter()
IDENT = r"[^\s(){}.;,@\"«»]+"

def blocks(text):
    """top-level blocks: (kind, lines)"""
    out=[]; cur=[]
    for line in text.split('\n'):
        if line[:1] not in (' ', ')', '}') and line.strip() and not (cur and cur[-1][:1]!=' ' and False):
            out.append([line])
        else:
            if out: out[-1].append(line)
            elif line.strip(): out.append([line])
    return ['\n'.join(b).rstrip() for b in out]

class Def:
    def __init__(s): s.comment=[]; s.sig=None; s.unf=[]; s.clauses=[]; s.mods=''; s.name=None; s.where=None

def parse(text):
    uses=[]; defs=[]; pend=[]; cur=None
    for b in blocks(text):
        if b.startswith('use '): uses.append(b); continue
        if b.startswith('--'): pend.append(b); cur=None if cur is None else cur; continue
        m=re.match(r'((?:abbrev |unfoldable |pub |ruleset |infixl \d+ |infixr \d+ )*)('+IDENT+r')((?: \{[^}]*\})*) :(?=\s)',b)
        if m and not b.startswith('unfolding'):
            cur=Def(); cur.mods=m[1]; cur.name=m[2]; cur.sig=b[m.end():].strip(); cur.comment=pend; pend=[]; cur.raw=[b]; defs.append(cur); continue
        if b.startswith('unfolding') and cur:
            cur.unf.append(b); cur.raw.append(b); cur.comment_in=pend; continue
        if cur is None:
            cur=Def(); cur.name='?'; cur.sig=''; cur.raw=[b]; cur.comment=pend; pend=[]; defs.append(cur)
        else:
            if pend: cur.comment+=pend; pend=[]
            cur.clauses.append(b); cur.raw.append(b)
    return uses, defs

def fname_lts(crate, folder):
    return f"Rattle-{crate}-proofs.{folder.replace('/', '.')}.Lts"

class Fn:
    def __init__(s, crate, folder, info):
        s.info=info; s.places={}
        for j,p in enumerate(info['places']):
            s.places[p[0]]=(j,p)
        s.unknown=[]; s.guess=[]
    def parent(s,P):
        return s.places[P][1][1]
    def path(s, P, segs):
        """new text of place P's record followed by segs"""
        segs=list(segs); k=0
        while segs and segs[0]=='before': k+=1; segs.pop(0)
        if not segs: return 'c'
        F=segs[0]; rest=segs[1:]
        if F=='requires' and s.req and len(s.req)>1:
            n=len(s.req); r=rest; k2=0
            while r and r[0]=='1' and k2<n-1: k2+=1; r=r[1:]
            if k2==n-1: return '.'.join(['c','requires',s.req[k2]]+r)
            if r and r[0]=='0': return '.'.join(['c','requires',s.req[k2]]+r[1:])
            parts=[f'c.requires.{x}' for x in s.req[k2:]]; u=parts[-1]
            for x in reversed(parts[:-1]): u=f'({x}, {u})'
            return u
        if F in ('args','ranges') and rest:
            m=re.match(r't(\d+)$',rest[0])
            if m and s.par and int(m[1])<=len(s.par): rest=[s.par[int(m[1])-1]]+rest[1:]
            rest=[rest[0].replace('-','_')]+rest[1:]
        if norm(F) in ('args','requires','ranges','well-formed'):
            return '.'.join(['c',F.replace('well-formed','well_formed')]+rest)
        chain=[]; Q=P
        while Q is not None:
            chain.append(Q); Q=s.parent(Q)
        def step(Q): return norm(s.places[Q][1][2][0])
        want=[norm(F)]
        if F.endswith('_lem'): want.append(norm(F[:-4]))
        best=None
        for w in want:
            hits=[i for i,Q in enumerate(chain) if step(Q)==w]
            if hits: best=min(hits,key=lambda i:abs(i-k)); break
        if best is None:
            strip=lambda x: re.sub(r'\d+$','',x)
            hits=[i for i,Q in enumerate(chain) if step(Q) and any(strip(step(Q))==strip(w) for w in want)]
            if hits:
                best=min(hits,key=lambda i:abs(i-k)); s.guess.append(F)
        if best is None:
            s.unknown.append(f'{P}: no step {F}'); return '.'.join(['c']+segs)
        j,p=s.places[chain[best]]
        F=p[2][0]
        old,new=p[2]
        if re.match(r'loop\d*$',old) and rest: rest=[rest[0].replace('-','_')]+rest[1:]
        arm=s.info['arms'][j]
        if arm:
            for nf,ostep,opath in arm[2]:
                if norm(ostep)==norm(F) and rest[:len(opath)]==opath and opath:
                    return '.'.join(['c',arm[0],nf]+rest[len(opath):])
        cl=s.info['clauses'][j]
        head=['c',new]
        if rest and rest[0]=='new':
            params=s.info['params'].get(p[3] or '',[])
            k=0; r=rest[1:]
            while r and r[0]=='1' : k+=1; r=r[1:]
            if r and r[0]=='0' and k<len(params):
                head+=['new',params[k]]; rest=r[1:]
                return '.'.join(head+rest)
        if rest and rest[0]=='ensures' and cl and cl.get('fields'):
            f=cl['fields']; n=len(f); r=rest[1:]; k=0
            while r and r[0]=='1' and k<n-1: k+=1; r=r[1:]
            if k==n-1 : return '.'.join(head+['ensures',f[k]]+r)
            if r and r[0]=='0': return '.'.join(head+['ensures',f[k]]+r[1:])
            parts=[ '.'.join(head+['ensures',x]) for x in f[k:]]
            t=parts[-1]
            for x in reversed(parts[:-1]): t=f'({x}, {t})'
            return t
        if norm(old).startswith('sized-arg') and rest[:2]==['given','0'] and len(rest)==2: return '(omega arith)'
        return '.'.join(head+rest)

PATH=re.compile(r'(?<![^\s(){};,])('+IDENT+r')((?:\.'+IDENT+r')*)')

def convert_body(fn, P, body, var):
    env={var:(P,[])}
    def resolve(m):
        v=m[1]; segs=[x for x in m[2].split('.') if x]
        if v=='at' and not segs: return m[0]
        if v in env:
            Q,s0=env[v]; r=fn.path(Q,s0+segs)
            # a definition may have the name that a let gave a step
            if not segs and r.count('.')==1 and v!=var and not r.endswith(('.args','.requires','.ranges')): return m[0]
            return r
        return m[0]
    # process lets sequentially
    out=''; pos=0
    LET=re.compile(r'\blet\s+('+IDENT+r')\s*=\s*\(?('+IDENT+r')((?:\.'+IDENT+r')*)\)?\s+in\b')
    text=body
    while True:
        m=LET.search(text)
        if not m:
            out+=PATH.sub(resolve,text); break
        out+=PATH.sub(resolve,text[:m.start()])
        v=m[2]; segs=[x for x in m[3].split('.') if x]
        if v in env:
            Q,s0=env[v]; env[m[1]]=(Q,s0+segs)
            rest=text[m.end():]
            text=rest.lstrip(' ') if not rest.startswith('\n') else rest
        else:
            if m[1] in env: del env[m[1]]
            out+=text[m.start():m.end()]; text=text[m.end():]
    return out

def split_top(s):
    """split tuple content at top-level commas"""
    parts=[]; d=0; cur=''
    for ch in s:
        if ch in '([{': d+=1
        if ch in ')]}': d-=1
        if ch==',' and d==0: parts.append(cur); cur=''
        else: cur+=ch
    parts.append(cur); return parts

def tail_tuple(body, names):
    """if body is lets followed by a tuple literal, give it as a record"""
    t=body.rstrip()
    if not t.endswith(')'): return None
    d=0
    for i in range(len(t)-1,-1,-1):
        if t[i]==')': d+=1
        if t[i]=='(':
            d-=1
            if d==0: break
    head=t[:i]
    if head.strip() and not head.rstrip().endswith(' in') and not head.rstrip().endswith('\nin'): return None
    parts=split_top(t[i+1:-1])
    parts=[p.strip() for p in parts]
    if parts and parts[-1]=='': parts=parts[:-1]
    while len(parts)<len(names):
        last=parts[-1].strip()
        if last.startswith('(') and last.endswith(')'):
            sub=[p.strip() for p in split_top(last[1:-1])]
            if len(sub)<2: return None
            parts=parts[:-1]+sub
        else: return None
    if len(parts)!=len(names): return None
    return head.rstrip()+('\n' if head.strip() else '')+'    record {\n'+'\n'.join(f'        {n} = {p};' for n,p in zip(names,parts))+'\n    }'

def clausewise(d, n, names, body):
    """an answer for each clause: the parts of one term"""
    t=NOT.sub(r'\1',body.strip())
    # leading lets
    head=''
    depth=0
    m=re.match(r'(?s)((?:let\b.*?\bin\s+)*)(.*)$',t)
    # find the last top-level " in" of leading lets
    pos=0
    while re.match(r'let\b',t[pos:]):
        i=pos; nest=0
        toks=re.finditer(r'\blet\b|\bin\b|[(\[{]|[)\]}]',t[pos:])
        cnt=0; end=None
        for k in toks:
            w=k[0]
            if w in '([{': nest+=1
            elif w in ')]}': nest-=1
            elif nest==0 and w=='let': cnt+=1
            elif nest==0 and w=='in':
                cnt-=1
                if cnt==0: end=pos+k.end(); break
        if end is None: return None
        pos=end
        while pos<len(t) and t[pos] in ' \n': pos+=1
    head,tail=t[:pos],t[pos:]
    if re.match(r'(rw|simp|elim|search|grind|omega|cc)\b',tail): return None
    out=[]
    for k,nm in enumerate(names):
        proj='.1'*k+('.0' if k<len(names)-1 else '')
        b=(head.rstrip()+'\n    ' if head else '')+f'({tail}){proj}'
        gn=f'{n}-clause-{nm}'
        out.append('\n'.join(d.comment*(k==0)+[f'pub {gn} : goal.{gn}']+d.unf+[f'{gn} c =\n    {b}']))
    return '\n\n'.join(out)

def filter_uses(uses, text, drop):
    words=set(re.findall(r'[^\s(){}.;,@"«»]+',text))
    out=[]
    for u in uses:
        m=re.match(r'use (\S+?)\.\{(.*)\}\s*$',u.replace('\n',' '),re.S)
        if m:
            if drop(m[1]): continue
            keep=[]
            for it in [x.strip() for x in m[2].split(',') if x.strip()]:
                n=it.split(' as ')[-1].strip()
                parts=[p for p in n.split('◌') if p]
                if '◌' in n:
                    if all(p in words for p in parts): keep.append(it)
                elif n in words: keep.append(it)
            if keep: out.append(f"use {m[1]}.{{{', '.join(keep)}}}")
        else:
            m=re.match(r'use (\S+)(?: as (\S+))?\s*$',u)
            if m and not drop(m[1]):
                n=m[2] or m[1].split('.')[-1]
                if n in words: out.append(u.strip())
    return out

def with_arith(uses, text):
    if not re.search(r'\barith\b', text): return uses
    if any(re.search(r'[{ ,]arith[,} ]', u) for u in uses): return uses
    for i,u in enumerate(uses):
        m=re.match(r'use Rattle\.std\.proofs\.Common\.\{(.*)\}$',u)
        if m:
            return uses[:i]+[f'use Rattle.std.proofs.Common.{{{m[1]}, arith}}']+uses[i+1:]
    return ['use Rattle.std.proofs.Common.{arith}']+uses

def args_of(s):
    """the arguments of an application, each with its parentheses"""
    out=[]; d=0; cur=''
    for ch in s.strip():
        if ch in '([{': d+=1
        if ch in ')]}': d-=1
        if ch.isspace() and d==0:
            if cur: out.append(cur)
            cur=''
        else: cur+=ch
    if cur: out.append(cur)
    return out

NOT=re.compile(r'\bnot[-_](?:true|false) \S+ (c\.if-not-\S+?\.(?:true|false))(?![\w.-])')
TRIVIAL=re.compile(r'^search rules$')

_src={}
def requires_of(crate, folder):
    """the names of a function's requires clauses"""
    if crate not in _src:
        d={}
        for p in glob.glob(f'crates/{crate}/src/**/*.rt',recursive=True):
            mod=os.path.relpath(p,f'crates/{crate}/src')[:-3]
            mod='' if mod in ('lib','main') else mod
            text=open(p).read()
            for m in re.finditer(r'\bfn (\w+)',text):
                end=text.find('\n}',m.end()); nxt=text.find('\nfn ',m.end())
                head=re.split(r'\n *\{\n',text[m.end():],1)[0]
                sig=re.split(r'\n *(?:requires|ensures|ghost)\b',head,1)[0]
                par=re.findall(r'(?:[(,]\s*)(?:mut )?(?:&\'?\w* ?(?:mut )?)?(\w+)\s*(?=:(?!:)|[,)])',re.sub(r'^<[^>]*>','',sig).split('->')[0]) if '(' in sig else []
                d.setdefault((mod,m[1]),(re.findall(r'^\s*requires (\w+) \{',head,re.M),par))
        _src[crate]=d
    parts=folder.split('/'); mods=[x for x in parts[:-1] if x[:1].islower()]
    return _src[crate].get(('/'.join(mods),parts[-1])) or (None,None)

def convert(crate, folder, names, say):
    cur=f'crates/{crate}/proofs/{folder}/Proof.antt'
    text=open(cur).read()
    if 'tie.close' not in text: say(f'{crate}/{folder}: no tie form'); stats['hand']+=1; return
    info=names.get(fname_lts(crate,folder))
    if info is None: say(f'{crate}/{folder}: not in names.json'); stats['noinfo']+=1; return
    landed=open(f'{LANDED}/crates/{crate}/proofs/{folder}/Proof.antt').read()
    lneeds=re.findall(r'^\S+ :\s+tie\.Need-(\S+)',landed,re.M)
    uses,defs=parse(text)
    needdefs=[d for d in defs if re.match(r'tie\.Need-',d.sig)]
    if len(lneeds)!=len(needdefs): say(f'{crate}/{folder}: {len(lneeds)} needs landed, {len(needdefs)} now'); stats['mismatch']+=1; return
    fn=Fn(crate,folder,info)
    fn.req,fn.par=requires_of(crate,folder)
    table={}
    for i,(o,n) in enumerate(info['needs']): table.setdefault(norm(o),(o,n,i))
    mod=f"Rattle.{crate}.proofs.{folder.replace('/','.')}"
    drop=lambda p: p.startswith(mod+'.') and p[len(mod)+1:] in ('Statement','Tie','Reads','Lts')
    inv=[]; ans=[]; notes=[]
    loops=info['loops']; changed=info['changed']
    for d in defs:
        m=re.match(r'tie\.Need-(\S+)',d.sig)
        if m:
            old=lneeds[needdefs.index(d)]
            old=re.sub(r'^(loop\d*)-holds$',r'\1-init',old); old=re.sub(r'^(loop\d*)-again$',r'\1-preserved',old); old=re.sub(r'^(loop\d*)-less$',r'\1-smaller',old)
            row=table.get(norm(old))
            if not row: notes.append(f'goal {old} is no more'); stats['gone']+=1; continue
            o,n,i=row
            if len(d.clauses)!=1: notes.append(f'goal {old}: {len(d.clauses)} clauses')
            cm=re.match(IDENT+r'((?:\s+[^\s=]+)*)\s*=(?=\s)',d.clauses[0])
            args=cm[1].split(); body=d.clauses[0][cm.end():].strip('\n')
            if TRIVIAL.match(body.strip()): stats['trivial']+=1; continue
            P=info['asked_at'][i][0]
            new=convert_body(fn,P,body,args[0])
            nm=info['asked'].get(o)
            if nm and len(nm)>1:
                r=tail_tuple(new,nm)
                if r is None:
                    done=clausewise(d,n,nm,new)
                    if done: ans.append(done); stats['clausewise']+=1; continue
                    notes.append(f'goal {n}: clauses {nm}, not a tuple'); stats['nontuple']+=1
                else: new=r
            stats['answers']+=1
            b=NOT.sub(r'\1',new.strip())
            sep='\n    ' if '\n' in b or len(b)+len(n)>90 else ' '
            ans.append('\n'.join(d.comment+[f'pub {n} : goal.{n}']+d.unf+[f'{n} c ={sep}{b}']))
        elif re.match(r'tie\.(invariant_loop|decreases_loop)',d.sig):
            kind,which=re.match(r'tie\.(invariant|decreases)_(loop\S*)',d.sig).groups()
            k=next((k for k,l in enumerate(loops) if norm(l[0][0])==norm(which)),None)
            if k is None: notes.append(f'loop {which}?'); continue
            nn=f'{kind}-{loops[k][0][1]}'
            cm=re.match(IDENT+r'((?:\s+[^\s=]+)*)\s*=(?=\s)',d.clauses[0])
            args=cm[1].split(); body=d.clauses[0][cm.end():].strip()
            vs=loops[k][1]; ch=changed[k]
            exp=[(f'l.{v}' if not c else f'l.initial.{v}') for v,c in zip(vs,ch)]+[f'l.{v}' for v,c in zip(vs,ch) if c]
            if len(exp)!=len(args): notes.append(f'{nn}: {len(args)} args for {vs} {ch}')
            env=dict(zip(args,exp))
            body=PATH.sub(lambda m: env.get(m[1],m[1])+m[2],body)
            inv.append('\n'.join(d.comment+d.unf+[f'abbrev pub {nn} : goal.{nn}',f'{nn} l = {body}']))
            stats['invariants']+=1
        elif d.name.endswith('_spec') or d.name.endswith('-spec'):
            continue
        else:
            t='\n'.join(d.comment+d.raw)
            if 'tie.' in t: notes.append(f'helper {d.name} speaks of tie'); stats['tiehelper']+=1
            ans.append(t); 
    if loops and not inv and needdefs:
        terms=args_of(re.sub(r'^tie\.Need-\S+','',needdefs[0].sig))
        if len(terms)==2*len(loops):
            for k,l in enumerate(loops):
                vs=l[1]; ch=changed[k]
                exp=[(f'l.{v}' if not c else f'l.initial.{v}') for v,c in zip(vs,ch)]+[f'l.{v}' for v,c in zip(vs,ch) if c]
                for kind,term in (('invariant',terms[2*k]),('decreases',terms[2*k+1])):
                    nn=f'{kind}-{l[0][1]}'
                    term=term[1:-1] if term.startswith('(') else term
                    inv.append(f'abbrev pub {nn} : goal.{nn}\n{nn} l = {term} '+' '.join(exp))
                    stats['invariants']+=1
        else: notes.append(f'loops {len(loops)} but terms {terms}')
    base=f'crates/{crate}/proofs/{folder}'
    if inv:
        t='\n\n'.join(inv)
        open(base+'/Invariants.antt','w').write('\n'.join(with_arith(filter_uses(uses,t,drop),t)+[f'use {mod}.Given as goal'])+'\n\n'+t+'\n')
    real=[a for a in ans]
    anyans=any(re.search(r'^pub \S+ : goal\.',a,re.M) for a in ans)
    if ans and anyans:
        t='\n\n'.join(ans)
        open(base+'/Answers.antt','w').write('\n'.join(with_arith(filter_uses(uses,t,drop),t)+[f'use {mod}.Goals as goal'])+'\n\n'+t+'\n')
    os.remove(cur)
    if not os.listdir(base): os.rmdir(base)
    for u in fn.unknown: notes.append(u)
    if fn.unknown: stats['unknown']+=1
    if fn.guess: stats['guess']+=1
    for nte in notes: say(f'{crate}/{folder}: {nte}')
    stats['functions']+=1

for crate in sys.argv[3:]:
    names=json.load(open(f'{NAMES}/crates/{crate}/names.json'))
    for p in sorted(glob.glob(f'crates/{crate}/proofs/**/Proof.antt',recursive=True)):
        folder=os.path.dirname(p)[len(f'crates/{crate}/proofs/'):]
        try: convert(crate,folder,names,print)
        except Exception as e:
            print(f'{crate}/{folder}: FAILED {type(e).__name__} {e}'); stats['failed']+=1
print(dict(stats))
