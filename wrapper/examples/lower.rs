//! Lowers machine M, then the activations of the result.

use ol_lower::{lower_activations, lower_state_machines, pack_check, Answer, PACK_MOST};

const M: [u8; 40] = [
    2, 0, 1, b'M', 1, b'S', 0, 0, 0, 0, 1, 0, 0, 0, 255, 255, 0, 0, 0, 0, 0, 0, 1, 0, 1, 0, 1, 0, 0, 0, 0, 0, 0, 0,
    255, 255, 0, 0, 0, 0,
];

fn main() {
    let (mut machines, mut activations) = (vec![0; PACK_MOST], vec![0; PACK_MOST]);
    let mut report = vec![0; PACK_MOST];
    println!("check {:?}", pack_check(&M));
    let answer = lower_state_machines(&M, &mut machines, &mut report);
    println!("machines {answer:?}");
    if let Answer::Done(bytes) = answer {
        println!("activations {:?}", lower_activations(&machines[..bytes], &mut activations, &mut report));
    }
}
