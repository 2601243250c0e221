//! The attacks that are played: where one begins, and what is forged.

use crate::forgery::Forgery;
use crate::service::Service;
use crate::settings::Settings;
use crate::tally::Tally;
use crate::world::{HONEST, Network, ORDERS, Outcome, PHASES, Phase, Shot, World};

/// All settings, with a server of each.
pub type Services = Vec<(Settings, Service)>;

pub fn services() -> Services {
    Settings::all()
        .into_iter()
        .map(|settings| (settings, Service::new(settings)))
        .collect()
}

/// Where an attack begins: the settings by their place, what the client has been through, what the
/// network does, and at which moment which message is answered.
#[derive(Clone, Copy, Debug)]
struct Stage {
    settings: usize,
    phase: Phase,
    network: Network,
    at: usize,
    is_current: bool,
}

/// Where a second datagram is forged: this many steps later.
const LATER: [usize; 3] = [0, 1, 2];

/// The cases of one alphabet: of one forged datagram, or of two.
pub struct Cases {
    stages: Vec<Stage>,
    kinds: Vec<Forgery>,
    is_pair: bool,
}

impl Cases {
    pub fn single(services: &Services, kinds: Vec<Forgery>) -> Cases {
        let losses = [None, Some(0), Some(1), Some(2)];
        Cases {
            stages: stages(services, &losses),
            kinds,
            is_pair: false,
        }
    }

    pub fn pairs(services: &Services, kinds: Vec<Forgery>) -> Cases {
        Cases {
            stages: stages(services, &[None]),
            kinds,
            is_pair: true,
        }
    }

    pub fn count(&self) -> usize {
        let kinds = self.kinds.len();
        let seconds = if self.is_pair {
            kinds * 2 * LATER.len()
        } else {
            1
        };
        self.stages.len() * kinds * seconds
    }

    /// The shots of a case, and where they begin.
    fn case(&self, number: usize) -> (Stage, Vec<Shot>) {
        let mut rest = number;
        let mut next = |count: usize| {
            let digit = rest % count;
            rest /= count;
            digit
        };
        let what = self.kinds[next(self.kinds.len())];
        let second = self.is_pair.then(|| {
            let what = self.kinds[next(self.kinds.len())];
            (what, next(2) == 0, LATER[next(LATER.len())])
        });
        let stage = self.stages[rest];
        let mut shots = vec![Shot {
            at: stage.at,
            is_current: stage.is_current,
            what,
        }];
        if let Some((what, is_current, later)) = second {
            shots.push(Shot {
                at: stage.at + later,
                is_current,
                what,
            });
        }
        (stage, shots)
    }

    /// Plays an attacked request, and one after it that nobody attacks. It counts for the first
    /// tally, or for the second one if the client accepts unsigned responses.
    pub fn play(&self, services: &Services, number: usize, tallies: &mut [Tally; 2]) {
        let (stage, shots) = self.case(number);
        let (settings, service) = &services[stage.settings];
        let mut world = World::new(service, *settings, stage.phase);
        let attacked = world.play(&shots, stage.network);
        if attacked.fired < shots.len() {
            return; // the request ended before the last of them
        }
        let next = world.play(&[], HONEST);
        let case = if attacked.is_served() && next.is_served() {
            String::new()
        } else {
            format!("{settings:?}, {stage:?}, {shots:?}")
        };
        let tally = &mut tallies[usize::from(settings.accepts_unsigned)];
        tally.count(&attacked, &next, world.verdicts, &case);
    }
}

/// The moments of an honest request at which a datagram can be forged.
fn stages(services: &Services, losses: &[Option<usize>]) -> Vec<Stage> {
    let mut stages = Vec::new();
    for (place, (settings, service)) in services.iter().enumerate() {
        for phase in PHASES {
            for (lost, order) in losses
                .iter()
                .flat_map(|lost| ORDERS.map(|order| (*lost, order)))
            {
                let network = Network { order, lost };
                let honest = World::new(service, *settings, phase).play(&[], network);
                assert!(
                    honest.is_served(),
                    "{settings:?} {phase:?} {network:?}: {honest:?}"
                );
                stages.extend(moments(&honest).map(|(at, is_current)| Stage {
                    settings: place,
                    phase,
                    network,
                    at,
                    is_current,
                }));
            }
        }
    }
    stages
}

/// After how many steps which message of a request can be answered: the current one, or the one
/// before it.
fn moments(honest: &Outcome) -> impl Iterator<Item = (usize, bool)> {
    let since = honest.earlier_since.unwrap_or(honest.steps);
    (0..honest.steps)
        .map(|at| (at, true))
        .chain((since..honest.steps).map(|at| (at, false)))
}
