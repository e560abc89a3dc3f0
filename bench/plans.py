"""Plans of kinds, each with its modules, for a number of rounds. All of them end quiet, if no kernel uses more than its 100,000 turns."""

LONGEST_CODE = 65_535
HELD = 10_000
# The instructions of one turn of the loop in `think`, and so many turns of it take 50 slices of 1,000.
LOOP, SLICES = 9, 50

ASK = """module ask;
op ask (int) : (int);
param peer : link;
var one : link;
var other : link;
var made : int;
var step : int;
var turn : int;
begin
  while made < {held} do
    new one, other;
    made := made + 1;
  end;
  while turn < {rounds} do
    step := 0;
    while step < {steps} do
      step := step + 1;
    end;
    connect ask on peer (turn) : (turn);
  end;
end.
"""
SERVE = """module serve;
op ask (int) : (int);
param peer : link;
entry answer of ask (number)
begin
  reply (number + 1);
end;
begin
  bind peer to answer;
end.
"""
SEND = """module send;
op carry ({types}) : ({types});
param peer : link;
var mine : link;
{vars}var turn : int;
begin
  {makes}
  while turn < {rounds} do
    connect carry on peer ({names}) : ({names});
    turn := turn + 1;
  end;
end.
"""
RETURN = """module return;
op carry ({types}) : ({types});
param peer : link;
entry back of carry ({names})
begin
  reply ({names});
end;
begin
  bind peer to back;
end.
"""
SHOP = """module shop;
op order () : (int);
op pay () : (int);
param buyer : link;
var paid : int;
var turn : int;
begin
  while turn < {rounds} do
    connect pay on buyer () : (paid);
    accept order on buyer () do
      reply (turn);
    end;
    turn := turn + 1;
  end;
end.
"""
BUYER = """module buyer;
op order () : (int);
op pay () : (int);
param shop : link;
var bought : int;
var turn : int;
entry purse of pay ()
begin
  reply (20);
end;
begin
  bind shop to purse;
  while turn < {rounds} do
    connect order on shop () : (bought);
    turn := turn + 1;
  end;
end.
"""
MUSEUM = """module museum;
op visit () : ();
op clean () : ();
param visitor : link;
param cleaner : link;
var seen : int;
var turn : int;
entry show of visit ()
begin
  seen := seen + 1;
  reply ();
end;
begin
  while turn < {rounds} do
    bind visitor to show;
    unbind visitor from show;
    connect clean on cleaner () : ();
    bind visitor to show;
    await seen > turn;
    unbind visitor from show;
    turn := turn + 1;
  end;
end.
"""
VISITOR = """module visitor;
op visit () : ();
param museum : link;
var turn : int;
begin
  while turn < {rounds} do
    connect visit on museum () : ();
    turn := turn + 1;
  end;
end.
"""
CLEANER = """module cleaner;
op clean () : ();
param museum : link;
entry cleans of clean ()
begin
  reply ();
end;
begin
  bind museum to cleans;
end.
"""
PRINT = """module print;
var turn : int;
begin
  while turn < {rounds} do
    write turn;
    turn := turn + 1;
  end;
end.
"""
STOPS = 'module stops;\nbegin\n' + 'stop;\n' * (LONGEST_CODE - 1) + 'end.\n'


def plan_text(kernels, processes, wires, version=1):
    """The plan of these processes, each a kernel and a module."""
    lines = ['version 2'] * (version == 2) + [f'kernels {kernels}']
    lines += [f'process {number} on {home} runs {module}' for number, (home, module) in enumerate(processes)]
    lines += [f'wire {first} {second}' for first, second in wires]
    return ''.join(line + '\n' for line in lines)


def asks(rounds, homes, kernels, held=0, steps=0):
    """Pairs of a process that asks and one that serves, on these kernels each."""
    processes = [place for asker, server in homes for place in ((asker, 'ask'), (server, 'serve'))]
    wires = [(2 * pair, 2 * pair + 1) for pair in range(len(homes))]
    return plan_text(kernels, processes, wires), {'ask': ASK.format(held=held, rounds=rounds, steps=steps), 'serve': SERVE}


def pairs(rounds, steps=0):
    return asks(rounds, [(kernel, (kernel + 1) % 8) for kernel in range(8)], 8, steps=steps)


def carries(rounds, links, version):
    """Links that go to another kernel with each request and come back with its reply. Their other ends stay."""
    names = [f'sent_{number}' for number in range(links)]
    words = {
        'types': ', '.join(['link'] * links),
        'names': ', '.join(names),
        'vars': ''.join(f'var {name} : link;\n' for name in names),
        'makes': ' '.join(f'new mine, {name};' for name in names),
        'rounds': rounds,
    }
    return plan_text(2, [(0, 'send'), (1, 'return')], [(0, 1)], version), {'send': SEND.format(**words), 'return': RETURN.format(**words)}


def forbids(rounds):
    files = {'shop': SHOP.format(rounds=rounds), 'buyer': BUYER.format(rounds=rounds)}
    return plan_text(2, [(0, 'shop'), (1, 'buyer')], [(0, 1)]), files


def retries(rounds):
    files = {'visitor': VISITOR.format(rounds=rounds), 'museum': MUSEUM.format(rounds=rounds), 'cleaner': CLEANER}
    return plan_text(3, [(0, 'visitor'), (1, 'museum'), (2, 'cleaner')], [(0, 1), (1, 2)]), files


def prints(rounds):
    return plan_text(1, [(0, 'print')], []), {'print': PRINT.format(rounds=rounds)}


def starts(rounds):
    """So many processes with the longest code, of which the first instruction ends each."""
    return plan_text(8, [(number % 8, 'stops') for number in range(rounds)], []), {'stops': STOPS}


# A kind has its plan and modules for a number of rounds, and the most rounds for which no kernel uses more than 100,000 turns.
KINDS = {
    'one': (lambda rounds: asks(rounds, [(0, 0)], 1), 7_000),
    'two': (lambda rounds: asks(rounds, [(0, 1)], 2), 14_000),
    'pairs': (pairs, 7_000),
    'moves': (lambda rounds: carries(rounds, 1, 1), 9_500),
    'eight': (lambda rounds: carries(rounds, 8, 2), 3_100),
    'encs': (lambda rounds: carries(rounds, 8, 1), 1_050),
    'forbid': (forbids, 3_900),
    'retry': (retries, 3_900),
    'held': (lambda rounds: asks(rounds, [(0, 1)], 2, held=HELD), 6_500),
    'prints': (prints, 99_000),
    'think': (lambda rounds: pairs(rounds, steps=SLICES * 1_000 // LOOP), 1_500),
    'start': (starts, 64),
}
EMPTY = (plan_text(1, [(0, 'empty')], []), {'empty': 'module empty;\nbegin\nend.\n'})


def written(folder, plan, modules):
    """Writes a plan, as the file `plan`, and its modules."""
    for name, text in {'plan': plan, **modules}.items():
        with open(f'{folder}/{name}', 'w') as file:
            file.write(text)
