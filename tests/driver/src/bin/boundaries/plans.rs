//! The plans that are edited.
use reference::gen::{PlanFields, TaskFields};

/// A controller without outputs, that reads signals 0 and 1.
pub fn controller(priority: u32, [period, deadline, execution, offset]: [u32; 4]) -> TaskFields {
    TaskFields {
        priority,
        period,
        deadline,
        execution,
        offset,
        kind: 2,
        initial: 0,
        inputs: vec![0, 1],
        outputs: vec![],
        transitions: vec![],
        actions: vec![],
    }
}

/// Equal controllers without outputs, that read the last signal: each is released at 0, 16, ..
pub fn many(tasks: u32, signals: u32) -> PlanFields {
    let task = |i| TaskFields { inputs: vec![0, signals - 1], ..controller(i + 1, [16, 16, 1, 0]) };
    PlanFields { signals: vec![1; signals as usize], tasks: (0..tasks).map(task).collect() }
}

/// The tasks of `plant`, one for each way to be released and to write.
pub const SUPERVISOR: usize = 0; // periodic, deadline 8
pub const WRITER: usize = 1; // periodic, no deadline
pub const DOOR: usize = 2; // event-driven, deadline 6
pub const BELL: usize = 3; // event-driven, no deadline
pub const LATE: usize = 4; // periodic, first released at 17
/// The first task number, and the first signal number, that `plant` does not have.
pub const NO_TASK: usize = 5;
pub const NO_SIGNAL: usize = 9;

pub fn plant() -> PlanFields {
    let supervisor = TaskFields {
        kind: 1,
        initial: 1,
        inputs: vec![7],
        outputs: vec![0, 1, 2, 3],
        transitions: vec![[1, 0, 1, 2], [2, 0, 1, 1]],
        actions: vec![[2, 1, 2, 0, 5], [1, 4, 2, 3, 0]],
        ..controller(3, [10, 8, 3, 2])
    };
    let writer = TaskFields { outputs: vec![4], actions: vec![[2, 3, 0, 0, 1]], ..controller(1, [9, 0, 5, 0]) };
    let door = controller(2, [0, 6, 2, 0]);
    let bell = TaskFields { kind: 1, initial: 16, inputs: vec![], outputs: vec![5, 6], ..controller(16, [0, 0, 1_000_000, 0]) };
    let late = controller(5, [1000, 1000, 1, 17]);
    PlanFields { signals: vec![1, 0, 9, 0, 0, 16, 0, 0, 3], tasks: vec![supervisor, writer, door, bell, late] }
}
